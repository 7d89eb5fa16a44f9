/* Measures a cycle by the calls of the library, as bench/library/main.rattle does by those that they hand on: alone, and with
   a step of each slave and of its application, which copies its outputs to its inputs.

     cycle TABLE */
#define BYTES 64
#include "over_segment.h"

#include <time.h>

#define CYCLES 2000
#define BATCHES 200

static double now(void) {
    struct timespec t;
    clock_gettime(CLOCK_THREAD_CPUTIME_ID, &t);
    return (double)t.tv_sec * 1e9 + (double)t.tv_nsec;
}

/* A step of each slave and of its application, whose inputs are the outputs that it read in the step before. */
static inline void step_all(struct ecat_segment *slaves, size_t count) {
    static uint8_t copies[SLAVES][BYTES];
    for (size_t slave = 0; slave < count; slave++) {
        uint8_t outputs[BYTES] = {0};
        ecat_segment_exchange(slaves, slave, copies[slave], BYTES, outputs, BYTES);
        memcpy(copies[slave], outputs, BYTES);
    }
}

/* A cycle, with the slaves' own work, if they are served. Returns whether its inputs were taken. */
static inline bool is_taken(struct ecat *m, struct ecat_segment *slaves, bool served, uint16_t *al) {
    size_t missing;
    exchange(m, slaves);
    if (served) step_all(slaves, ecat_slaves(m));
    return ecat_close(m, &missing, al) && missing == 0 && *al == 8 && ecat_unit(m, 0) == 1;
}

/* Prints what a cycle takes in the fastest of some batches. */
static void measure(const char *name, struct ecat *m, struct ecat_segment *slaves, bool served) {
    double best = 1e18;
    uint16_t al = 0;
    for (int batch = 0; batch < BATCHES; batch++) {
        double start = now();
        for (int k = 0; k < CYCLES; k++) must(is_taken(m, slaves, served, &al), "a cycle is taken");
        double time = now() - start;
        if (time < best) best = time;
    }
    printf("%s %.0f ns\n", name, best / CYCLES);
}

int main(int argc, char **argv) {
    struct ecat m = {0};
    struct ecat_segment slaves = {0};
    FILE *f = argc > 1 ? fopen(argv[1], "rb") : NULL;
    size_t len = f ? fread(table, 1, sizeof table, f) : 0;
    must(len > 0, "there is a table");
    must(ecat_open(&m, table, len, NULL) == 0 && ecat_segment_open(&slaves, table, len, false, NULL) == 0, "both are opened");
    bring_up(&m, &slaves);
    measure("library_cycle_T", &m, &slaves, false);
    measure("library_cycle_T_served", &m, &slaves, true);
    ecat_drop(&m);
    ecat_segment_drop(&slaves);
    return 0;
}
