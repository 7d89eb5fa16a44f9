/* A control program and its slaves in one process, so that the program is tested without a wire. Each fourteenth answer is lost,
   each thirtieth comes a cycle late, and a foreign frame comes before each. Exactly the cycles whose answer was lost or late are not
   taken.

     inside TABLE [CYCLES] */
#include "over_segment.h"

#define ROOM 64

struct payload { size_t len; uint8_t bytes[ECAT_FRAME]; };

static struct ecat_segment slaves;
static struct payload arrived[ROOM], held;
static size_t first, last, sent, spoilt, untaken;
static int cycles = 1000;

static void arrive(const uint8_t *bytes, size_t len) {
    must(last - first < ROOM, "there is room for what arrives");
    arrived[last % ROOM].len = len;
    memcpy(arrived[last++ % ROOM].bytes, bytes, len);
}

static void send_frame(const uint8_t *bytes, size_t len) {
    static const uint8_t foreign[16] = {0x0E, 0x10};
    struct payload passed = {len, {0}};
    memcpy(passed.bytes, bytes, len);
    must(ecat_segment_pass(&slaves, passed.bytes, len), "a frame passes");
    serve(&slaves);
    arrive(foreign, sizeof foreign);
    sent++;
    if (sent % 14 && sent % 30) { arrive(passed.bytes, len); return; }
    if (sent % 30 == 0) held = passed;
    spoilt++;
}

/* Returns the length of the next payload, or 0 if none is left. A real program waits here until the cycle's time is over. */
static size_t receive_frame(uint8_t *came) {
    if (first == last) return 0;
    struct payload *next = &arrived[first++ % ROOM];
    memcpy(came, next->bytes, next->len);
    return next->len;
}

/* Lets the answer that was held back arrive. Returns whether another cycle follows. */
static bool goes_on(void) {
    if (held.len) arrive(held.bytes, held.len);
    held.len = 0;
    return cycles-- > 0;
}

static void report(size_t missing, uint16_t al) {
    must(missing == 1 && al <= 8, "one answer is missing");
    untaken++;
}

int main(int argc, char **argv) {
    static uint8_t came[ECAT_FRAME];
    struct ecat m = {0};
    size_t length, count, missing;
    uint16_t al = 0;
    FILE *f = argc > 1 ? fopen(argv[1], "rb") : NULL;
    length = f ? fread(table, 1, sizeof table, f) : 0;
    if (argc > 2) cycles = atoi(argv[2]);
    int all = cycles;
    must(length > 0 && ecat_segment_open(&slaves, table, length, false, NULL) == 0, "the slaves are opened");
    struct ecat_refusal refusal;
    if (ecat_open(&m, table, length, &refusal)) return refusal.number;
    while ((count = ecat_next(&m, frame, sizeof frame)) != 0) {             /* the start-up, frame by frame */
        send_frame(frame, count);
        sent = 0;
        while ((count = receive_frame(came)) != 0 && !ecat_take(&m, came, count, NULL)) {}
        if (count == 0) { ecat_give_up(&m); break; }
    }
    if (ecat_phase(&m) != 1) return -ecat_phase(&m);
    size_t valves = (size_t)ecat_variable(&m, "valves"), switches = (size_t)ecat_variable(&m, "switches");
    while (goes_on()) {                                                     /* a cycle: the valves follow the switches */
        ecat_set(&m, valves, ecat_get(&m, switches) & 3);
        int parts = ecat_begin(&m);
        for (int part = 0; part < parts; part++)
            send_frame(frame, ecat_part(&m, (size_t)part, frame, sizeof frame));
        missing = (size_t)parts;
        while (missing && (count = receive_frame(came)) != 0) ecat_take(&m, came, count, &missing);
        if (!ecat_close(&m, &missing, &al)) report(missing, al);
    }
    ecat_drop(&m);
    ecat_segment_drop(&slaves);
    printf("%d cycles, %zu answers lost or late, %zu cycles untaken\n", all, spoilt, untaken);
    must(untaken == spoilt, "the cycles whose answer was lost or late aren't taken, and all others are");
    return 0;
}
