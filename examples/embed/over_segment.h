/* A master over an in-process segment of the same library, as the other programs of this folder use it. */
#include "ecat.h"

#include <stdio.h>
#include <stdlib.h>
#include <string.h>

#define SLAVES 64
/* a slave has so many bytes of outputs, or of inputs, at most */
#ifndef BYTES
#define BYTES 2730
#endif

static char table[1 << 20];
static uint8_t frame[ECAT_FRAME];

/* Ends the program if something doesn't hold. */
static void must(int holds, const char *what) {
    if (!holds) {
        fprintf(stderr, "machine: not so: %s\n", what);
        exit(1);
    }
}

/* Makes a firmware step of each slave, whose application then copies its outputs to its inputs. */
static void serve(struct ecat_segment *slaves) {
    for (size_t slave = 0; ecat_segment_serve(slaves, slave); slave++) {
        uint8_t bytes[BYTES] = {0};
        ecat_segment_outputs(slaves, slave, bytes, sizeof bytes);
        ecat_segment_inputs(slaves, slave, bytes, sizeof bytes);
    }
}

static inline void bring_up(struct ecat *m, struct ecat_segment *slaves) {
    for (size_t len; (len = ecat_next(m, frame, sizeof frame)) != 0;) {
        must(ecat_segment_pass(slaves, frame, len), "a frame of the start-up passes");
        serve(slaves);
        must(ecat_take(m, frame, len, NULL), "its answer is taken");
    }
    must(ecat_phase(m) == 1, "the start-up ends ready");
}

/* Begins a cycle, and passes the frame of each part through the slaves and back to the master. */
static inline void exchange(struct ecat *m, struct ecat_segment *slaves) {
    size_t missing = 1;
    int parts = ecat_begin(m);
    must(parts > 0, "a cycle begins");
    for (int part = 0; part < parts; part++) {
        size_t len = ecat_part(m, (size_t)part, frame, sizeof frame);
        must(len > 0 && ecat_segment_pass(slaves, frame, len), "the frame of a part passes");
        must(ecat_take(m, frame, len, &missing), "and is taken");
    }
    must(missing == 0, "all parts are back");
}

static inline bool cycle(struct ecat *m, struct ecat_segment *slaves, uint16_t *al) {
    size_t missing;
    exchange(m, slaves);
    serve(slaves);
    return ecat_close(m, &missing, al);
}
