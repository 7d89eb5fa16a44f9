/* A control program over an in-process segment of the same library: it brings up the slaves of a table, runs cycles in which
   each slave copies its outputs to its inputs, and tries a caller's mistakes.

     machine TABLE [CYCLES [OPENS]] */
#include "over_segment.h"

#include <unistd.h>

static uint8_t other[ECAT_FRAME];

/* Passes a frame through the slaves and back to the master, which takes it. */
static void pass(struct ecat *m, struct ecat_segment *slaves, size_t len) {
    must(len > 0 && ecat_segment_pass(slaves, frame, len), "a frame passes");
    serve(slaves);
    must(ecat_take(m, frame, len, NULL), "and is taken");
}

/* The resident memory of this process, in kilobytes. */
static long memory(void) {
    long pages = 0, resident = 0;
    FILE *f = fopen("/proc/self/statm", "r");
    if (!f) return 0;
    if (fscanf(f, "%ld %ld", &pages, &resident) != 2) resident = 0;
    fclose(f);
    return resident * (sysconf(_SC_PAGESIZE) / 1024);
}

/* Opens and drops handles; this must leave no memory behind. */
static void open_and_drop(size_t len, int opens) {
    long before = 0, after;
    for (int k = 0; k < opens; k++) {
        struct ecat m = {0};
        struct ecat_segment s = {0};
        must(ecat_open(&m, table, len, NULL) == 0 && ecat_segment_open(&s, table, len, false, NULL) == 0, "a handle is opened");
        ecat_drop(&m);
        ecat_segment_drop(&s);
        if (k == opens / 10) before = memory();
    }
    after = memory();
    printf("%d opens and drops, %ld kB more\n", opens, after - before);
    must(after - before < 2048, "memory comes back");
}

/* Tries a caller's mistakes: each call returns what ecat.h says. */
static void mistakes(size_t len) {
    struct ecat m = {0};
    struct ecat_segment s = {0};
    struct ecat_refusal refusal;
    struct ecat_variable_info info;
    char words[ECAT_WORDS];
    uint8_t room[16];
    uint16_t al;
    size_t missing;
    must(ecat_next(&m, frame, sizeof frame) == 0 && ecat_phase(&m) == 0 && ecat_begin(&m) == -255, "a handle of nothing answers");
    must(!ecat_take(&m, frame, 4, NULL) && !ecat_close(&m, NULL, NULL) && ecat_unit(&m, 0) == -1, "and takes nothing");
    must(!ecat_set(&m, 0, 0) && ecat_get(&m, 0) == 0 && ecat_variable(&m, "lamp") == -1, "and has no variable");
    must(ecat_outputs(&m, NULL, 0) == 0 && ecat_inputs(&m, NULL, 0) == 0 && ecat_part(&m, 0, frame, sizeof frame) == 0, "and no image");
    must(!ecat_waits(&m) && !ecat_failure(&m, &refusal) && refusal.number == 0 && refusal.count == 0 && !refusal.name[0], "and no start-up");
    must(ecat_explain(&m, words, sizeof words) == 0 && ecat_state_next(&m, 0, frame, sizeof frame) == 0 && ecat_state(&m, 0, &al) == -1, "and says nothing");
    must(ecat_slaves(&m) == 0 && ecat_variables(&m) == 0 && !ecat_variable_info(&m, 0, &info) && ecat_get_signed(&m, 0) == 0, "and has nothing");
    must(ecat_counters(&m, 0, &al, NULL) == 0, "and counts nothing");
    must(!ecat_segment_serve(&s, 0) && !ecat_segment_pass(&s, frame, 4), "nor a slave");
    must(ecat_segment_outputs(&s, 0, room, sizeof room) == 0 && ecat_segment_inputs(&s, 0, room, 0) == 0, "nor its process data");
    must(ecat_segment_exchange(&s, 0, NULL, 0, room, sizeof room) == 0, "nor a step of it");
    must(!strcmp(ecat_version(), ECAT_VERSION), "there is a version");
    ecat_drop(&m);
    ecat_drop(NULL);
    must(ecat_open(NULL, table, len, NULL) == 255, "no handle");
    must(ecat_open(&m, "version = 3", 11, &refusal) == 13 && !strcmp(refusal.name, "BadValue") && refusal.count == 2 && !m.at, "a bad value is told");
    must(ecat_open(&m, "\xFF", 1, &refusal) == 42 && !strcmp(refusal.name, "Input") && refusal.count == 0, "so is what is no text");
    must(ecat_open(&m, NULL, 100, NULL) == 0 && m.at, "no bytes are a table without slaves");
    ecat_drop(&m);
    must(ecat_open(&m, table, len, &refusal) == 0 && refusal.number == 0, "a table is opened");
    must(ecat_open(&m, table, len, NULL) == 255, "a handle is opened once");
    must(ecat_begin(&m) == -33 && !ecat_close(&m, &missing, &al), "no cycle before the start-up");
    must(ecat_next(&m, room, sizeof room) == 0 && ecat_next(&m, NULL, ECAT_FRAME) == 0, "a short room gets no frame");
    size_t count = ecat_next(&m, frame, sizeof frame);
    must(count > 0 && ecat_next(&m, frame, sizeof frame) == 0, "one frame is out at a time");
    must(!ecat_take(&m, NULL, 5, NULL) && !ecat_take(&m, room, sizeof room, NULL), "other bytes are foreign");
    ecat_give_up(&m);
    must(ecat_phase(&m) == -32, "a start-up that is given up is lost");
    must(ecat_failure(&m, &refusal) && refusal.number == 32 && !strcmp(refusal.name, "Lost") && refusal.count == 0, "its failure is told");
    must(ecat_explain(&m, NULL, 0) == 8 && ecat_explain(&m, words, 8) == 8, "words that don't fit are not written");
    must(ecat_explain(&m, words, 9) == 8 && !strcmp(words, "given up"), "and those that fit are");
    must(ecat_next(&m, frame, sizeof frame) > 0 && ecat_phase(&m) == 0 && !ecat_failure(&m, NULL), "and begins again");
    must(!ecat_set(&m, 99, 0) && !ecat_set(&m, 0, 2) && !ecat_set(&m, (size_t)-1, 0) && ecat_get(&m, (size_t)-1) == 0, "numbers out of range");
    must(ecat_unit(&m, 0) == -1 && ecat_unit(&m, 256) == -1 && ecat_counters(&m, 0, &al, &al) == 0, "no report, no unit, no counters");
    must(!ecat_variable_info(&m, (size_t)-1, &info) && ecat_get_signed(&m, (size_t)-1) == 0 && ecat_state(&m, (size_t)-1, &al) == -1, "nor anything out of range");
    must(ecat_state_next(&m, SLAVES, frame, sizeof frame) == 0 && ecat_state_next(&m, 0, frame, sizeof frame - 1) == 0, "no such slave, no room");
    must(ecat_part(&m, 0, frame, sizeof frame) == 0 && ecat_variable(&m, "nothing") == -1 && ecat_variable(&m, NULL) == -1, "no part, no name");
    ecat_drop(&m);
    ecat_drop(&m);
    must(!m.at, "a handle that was dropped is of nothing");
    must(ecat_segment_open(&s, table, len, true, NULL) == 0, "a segment of full slaves is opened");
    must(ecat_segment_open(&s, table, len, false, NULL) == 255, "one that is open is not opened again");
    ecat_segment_drop(&s);
    must(ecat_segment_open(&s, table, len, false, NULL) == 0, "a segment is opened");
    must(!ecat_segment_serve(&s, SLAVES) && !ecat_segment_get(&s, 0, 0, room) && !ecat_segment_put(&s, 0, 0, 1), "slaves in INIT deny");
    must(ecat_segment_outputs(&s, 0, room, sizeof room) == 0 && ecat_segment_inputs(&s, 0, room, sizeof room) == 0, "and have no process data");
    must(!ecat_segment_fault(&s, 0) && !ecat_segment_pass(&s, room, 1) && ecat_segment_reset(&s, 0), "and have no fault");
    ecat_segment_drop(&s);
    ecat_segment_drop(&s);
}

/* Tries what a failure says: a master of this table over slaves of which one is another product. */
static void failures(size_t len) {
    static char others[sizeof table];
    struct ecat m = {0};
    struct ecat_segment slaves = {0};
    struct ecat_refusal failure;
    char words[ECAT_WORDS];
    memcpy(others, table, len);
    char *product = strstr(others, "0x0302");
    must(product != NULL, "the press has this product");
    memcpy(product, "0x0303", 6);
    must(ecat_open(&m, table, len, NULL) == 0 && ecat_segment_open(&slaves, others, len, false, NULL) == 0, "both are opened");
    while (ecat_phase(&m) == 0) pass(&m, &slaves, ecat_next(&m, frame, sizeof frame));
    must(ecat_phase(&m) == -27 && ecat_failure(&m, &failure) && failure.number == 27 && !strcmp(failure.name, "Identity"), "another device is found");
    must(failure.count == 4 && failure.values[0] == 1 && failure.values[1] == 0x5A5 && failure.values[2] == 0x303, "it is told, with all values");
    size_t size = ecat_explain(&m, words, sizeof words);
    must(size == strlen(words) && strstr(words, "press") && strstr(words, "0x00000303"), "and explained by its name");
    ecat_drop(&m);
    ecat_segment_drop(&slaves);
}

/* Tries when a start-up waits: its slaves make no firmware step, so that it polls. */
static void waits(size_t len) {
    struct ecat m = {0};
    struct ecat_segment slaves = {0};
    size_t size;
    int frames = 0, polls = 0;
    must(ecat_open(&m, table, len, NULL) == 0 && ecat_segment_open(&slaves, table, len, false, NULL) == 0, "both are opened");
    for (; polls < 20 && (size = ecat_next(&m, frame, sizeof frame)) != 0; frames++) {
        polls += ecat_waits(&m);
        must(frames > 0 || !polls, "the first frame is no poll");
        must(ecat_segment_pass(&slaves, frame, size) && ecat_take(&m, frame, size, NULL), "a frame is answered");
    }
    must(polls == 20 && frames < 60, "it polls");
    bring_up(&m, &slaves);
    must(!ecat_waits(&m), "it polls no more");
    ecat_drop(&m);
    ecat_segment_drop(&slaves);
}

/* Returns the AL status word of a slave, by a frame that asks for it. */
static int state_of(struct ecat *m, struct ecat_segment *slaves, size_t slave, uint16_t *code) {
    pass(m, slaves, ecat_state_next(m, slave, frame, sizeof frame));
    return ecat_state(m, slave, code);
}

/* Tries what is known of the variables of examples/small_machine.toml. */
static void facts(const struct ecat *m) {
    static const struct ecat_variable_info wanted[] = {{"lamp", 1, true, false, 0}, {"valves", 2, true, false, 1}, {"switches", 8, false, false, 0},
        {"force_wanted", 16, true, false, 3}, {"force", 16, false, false, 8}};
    struct ecat_variable_info info;
    must(ecat_slaves(m) == 2 && ecat_variables(m) == 5, "there are two slaves and five variables");
    for (size_t k = 0; k < 5; k++) {
        must(ecat_variable_info(m, k, &info) && !strcmp(info.name, wanted[k].name) && info.bits == wanted[k].bits, "a variable is described");
        must(info.is_output == wanted[k].is_output && !info.is_signed && info.bit == wanted[k].bit, "and where it is");
    }
    must(!ecat_variable_info(m, 5, &info) && ecat_variable_info(m, 4, NULL), "no other is");
}

/* Tries what a slave's application reads and writes: whole, it is what it is byte by byte. */
static void process_data(struct ecat_segment *slaves) {
    uint8_t bytes[64], again[64], byte;
    size_t count = ecat_segment_outputs(slaves, 0, bytes, sizeof bytes), size = ecat_segment_inputs(slaves, 0, NULL, 0);
    must(count > 0 && ecat_segment_outputs(slaves, 0, NULL, 0) == count && size > 0 && size <= sizeof bytes, "a slave has outputs and inputs");
    for (size_t k = 0; k < count; k++) must(ecat_segment_get(slaves, 0, k, &byte) && byte == bytes[k], "each byte is read");
    for (size_t k = 0; k < size; k++) must(ecat_segment_put(slaves, 0, k, bytes[k]), "each byte is written");
    must(!ecat_segment_get(slaves, 0, count, &byte) && !ecat_segment_put(slaves, 0, size, 0), "and no other");
    must(ecat_segment_inputs(slaves, 0, bytes, size - 1) == size && ecat_segment_inputs(slaves, 0, bytes, size) == size, "so are all");
    must(ecat_segment_outputs(slaves, SLAVES, bytes, sizeof bytes) == 0 && ecat_segment_inputs(slaves, SLAVES, bytes, sizeof bytes) == 0, "no such slave");
    must(ecat_segment_exchange(slaves, 0, bytes, size, again, sizeof again) == count && !memcmp(again, bytes, count), "a step reads them too");
    must(ecat_segment_exchange(slaves, 0, NULL, 0, NULL, 0) == count, "without room it reads none");
    must(ecat_segment_exchange(slaves, SLAVES, bytes, size, again, sizeof again) == 0, "no such slave makes a step");
}

/* The calls that change nothing hand back the pointer that they were given. */
static void same_pointer(const struct ecat *m) {
    struct ecat same[16] = {{0}};
    uint64_t values[4];
    ecat_c_phase(*m, &same[0]);
    ecat_c_part(*m, 0, frame, sizeof frame, &same[1]);
    ecat_c_unit(*m, 0, &same[2]);
    ecat_c_get(*m, 0, &same[3]);
    ecat_c_inputs(*m, frame, sizeof frame, &same[4]);
    ecat_c_variable(*m, (const uint8_t *)"lamp", 4, &same[5]);
    ecat_c_waits(*m, &same[6]);
    ecat_c_failure(*m, values, 4, &same[7]);
    ecat_c_failure_name(*m, frame, sizeof frame, &same[8]);
    ecat_c_explain(*m, frame, sizeof frame, &same[9]);
    ecat_c_state(*m, 0, &same[10]);
    ecat_c_slaves(*m, &same[11]);
    ecat_c_counters(*m, 0, &same[12]);
    ecat_c_get_signed(*m, 0, &same[13]);
    ecat_c_place(*m, 0, &same[14]);
    ecat_c_name(*m, 0, frame, sizeof frame, &same[15]);
    for (int k = 0; k < 16; k++) must(same[k].at == m->at, "a handle that doesn't change is handed back as it was");
}

int main(int argc, char **argv) {
    struct ecat m = {0};
    struct ecat_segment slaves = {0};
    FILE *f = argc > 1 ? fopen(argv[1], "rb") : NULL;
    size_t len = f ? fread(table, 1, sizeof table, f) : 0;
    int cycles = argc > 2 ? atoi(argv[2]) : 1000, opens = argc > 3 ? atoi(argv[3]) : 100, taken = 0;
    uint16_t al = 0;
    must(len > 0, "there is a table");
    mistakes(len);
    failures(len);
    waits(len);
    must(ecat_open(&m, table, len, NULL) == 0 && ecat_segment_open(&slaves, table, len, false, NULL) == 0, "both are opened");
    bring_up(&m, &slaves);
    same_pointer(&m);
    facts(&m);
    process_data(&slaves);
    long wanted = ecat_variable(&m, "force_wanted"), valves = ecat_variable(&m, "valves"), switches = ecat_variable(&m, "switches");
    must(wanted >= 0 && valves >= 0 && switches >= 0, "the variables are there");
    for (int k = 1; k <= cycles; k++) {
        must(ecat_set(&m, (size_t)wanted, (uint64_t)k & 0xFFFF) && ecat_set(&m, (size_t)valves, (uint64_t)k & 3), "variables are set");
        taken += cycle(&m, &slaves, &al);
        /* the valves are bits 1 and 2 of the panel's byte, which it showed after the cycle before */
        must(k == 1 || ecat_get(&m, (size_t)switches) == ((uint64_t)(k - 1) & 3) << 1, "inputs are what the slave showed");
    }
    printf("%d cycles, %d taken, AL %04x\n", cycles, taken, al);
    must(taken == cycles && al == 8 && ecat_unit(&m, 0) == 1 && ecat_unit(&m, 1) == 1 && ecat_unit(&m, 2) == -1, "all cycles are taken");
    must(ecat_get(&m, (size_t)wanted) == ((uint64_t)cycles & 0xFFFF), "outputs are as they were set");
    must(ecat_get_signed(&m, (size_t)wanted) == (cycles & 0xFFFF), "and have no sign");
    uint16_t first = 0, second = 0, code = 1;
    must(ecat_counters(&m, 0, &first, &second) == 1 && first == 3 && second == 0, "the panel's LRW counts 3");
    must(ecat_counters(&m, 1, &first, &second) == 2 && first == 1 && second == 1 && ecat_counters(&m, 2, &first, NULL) == 0, "the press counts 1 and 1");
    must(ecat_state(&m, 0, &code) == -1 && code == 1, "no slave was asked yet");
    must(state_of(&m, &slaves, 0, &code) == 8 && code == 0 && ecat_state(&m, 1, &code) == -1, "the panel is in OP");
    must(ecat_segment_fault(&slaves, 1), "a slave in OP has a fault");
    must(state_of(&m, &slaves, 1, &code) == 0x14 && code != 0 && ecat_state(&m, 0, NULL) == 8, "it is in SAFEOP, with an error");
    size_t size = ecat_state_next(&m, 0, frame, sizeof frame);
    must(ecat_segment_pass(&slaves, frame, size) && ecat_state_next(&m, 1, other, sizeof other) == size, "two frames ask");
    must(!ecat_take(&m, frame, size, NULL) && ecat_state(&m, 0, NULL) == 8, "and the answer to the first is foreign");
    must(ecat_take(&m, other, size, NULL) && ecat_state(&m, 1, NULL) == -1, "a frame that no slave touched says nothing");
    must(!cycle(&m, &slaves, &al) && ecat_unit(&m, 0) == 1 && ecat_unit(&m, 1) == 0, "its unit isn't taken, and the other is");
    uint8_t image[16];
    size_t outs = ecat_outputs(&m, NULL, 0), ins = ecat_inputs(&m, NULL, 0);
    same_pointer(&m);
    must(outs > 0 && outs <= sizeof image && ins > 0 && ins <= sizeof image, "the images have bytes");
    memset(image, 0xFF, sizeof image);
    must(ecat_outputs(&m, image, outs) == outs && ecat_get(&m, (size_t)wanted) == 0xFFFF, "the image of the outputs is set");
    must(ecat_outputs(&m, image, outs + 1) == outs && ecat_inputs(&m, image, ins - 1) == ins && image[0] == 0xFF, "a short room is left");
    must(ecat_inputs(&m, image, sizeof image) == ins, "the image of the inputs is shown");
    ecat_drop(&m);
    ecat_segment_drop(&slaves);
    open_and_drop(len, opens);
    return 0;
}
