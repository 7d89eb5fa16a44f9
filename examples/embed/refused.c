/* Refuses each allocation of the library in turn: first it and all later ones, then it alone. An open must then return 1 and leave its
   handle {0}; it may also succeed if one allocation alone was refused. No call between an open and a drop may call the allocator: this
   program counts these calls. Link it with -Wl,--wrap=malloc,--wrap=realloc,--wrap=free.

     refused TABLE */
#include "over_segment.h"

void *__real_malloc(size_t size);
void *__real_realloc(void *block, size_t size);
void *__wrap_malloc(size_t size);
void *__wrap_realloc(void *block, size_t size);
void __real_free(void *block);
void __wrap_free(void *block);

/* How many more allocations are granted before one is refused, or all are. */
static long granted = -1;
static bool one_alone;
/* How many allocations were refused. */
static long refused;
/* How often malloc, realloc and free were called. */
static long called;

static bool refuses(void) {
    called++;
    if (granted < 0) return false;
    if (granted > 0) return granted-- < 0;
    if (one_alone) granted = -1;
    refused++;
    return true;
}

void *__wrap_malloc(size_t size) { return refuses() ? NULL : __real_malloc(size); }

void *__wrap_realloc(void *block, size_t size) { return refuses() ? NULL : __real_realloc(block, size); }

void __wrap_free(void *block) { called++; __real_free(block); }

static bool is_refused(uint8_t number, void *at, const struct ecat_refusal *told) {
    must(number == 0 || (number == 1 && !at && !strcmp(told->name, "Memory") && told->count == 0), "an open is refused by 1");
    must(number == 0 || refused > 0, "only where an allocation was refused");
    must(number == 1 || refused == 0 || one_alone, "and wherever all further ones are");
    return number == 1;
}

/* Makes each call of a master and of a segment, except those that open and drop. */
static void call_each(struct ecat *m, struct ecat_segment *slaves) {
    struct ecat_variable_info info;
    struct ecat_refusal failure;
    char words[ECAT_WORDS];
    uint8_t image[64], byte;
    uint16_t al = 0;
    bring_up(m, slaves);
    must(cycle(m, slaves, &al) && cycle(m, slaves, &al) && al == 8, "cycles are taken");
    must(ecat_set(m, 0, 1) && ecat_get(m, 0) == 1 && ecat_variable(m, "nothing") == -1, "variables are set and found");
    must(ecat_outputs(m, image, 0) > 0 && ecat_inputs(m, image, sizeof image) > 0 && ecat_unit(m, 0) == 1, "there are images and a unit");
    ecat_segment_get(slaves, 0, 0, &byte);
    ecat_segment_put(slaves, 0, 0, 1);
    ecat_segment_fault(slaves, 0);
    must(ecat_segment_reset(slaves, 0) && ecat_segment_serve(slaves, 0), "a slave is switched off and on");
    must(ecat_begin(m) > 0 && !ecat_take(m, image, sizeof image, NULL) && !ecat_close(m, NULL, &al), "a cycle without answers isn't taken");
    must(ecat_next(m, frame, sizeof frame) == 0, "no frame of the start-up is left");
    must(ecat_slaves(m) == 2 && ecat_variables(m) == 5 && ecat_variable_info(m, 0, &info) && ecat_get_signed(m, 0) == 1, "there are slaves and variables");
    must(ecat_state_next(m, 0, frame, sizeof frame) > 0 && ecat_state(m, 0, NULL) == -1 && ecat_counters(m, 0, &al, &al) == 0, "a slave is asked");
    must(!ecat_waits(m) && !ecat_failure(m, &failure) && ecat_explain(m, words, sizeof words) == 0, "the start-up has not failed");
    ecat_give_up(m);
}

/* Gives up a start-up, and asks why it failed. */
static void call_failed(struct ecat *m) {
    struct ecat_refusal failure;
    char words[ECAT_WORDS];
    must(ecat_next(m, frame, sizeof frame) > 0, "a start-up begins");
    ecat_give_up(m);
    must(ecat_failure(m, &failure) && failure.number == 32 && ecat_explain(m, words, sizeof words) > 0, "its failure is explained");
}

/* Opens a master and full slaves with so many allocations granted, and calls them if both open. Returns whether one was refused. */
static bool try_opens(size_t len, long grant, bool alone) {
    struct ecat m = {0};
    struct ecat_segment slaves = {0};
    struct ecat_refusal told;
    granted = grant, one_alone = alone, refused = 0;
    bool is_over = is_refused(ecat_open(&m, table, len, &told), m.at, &told)
        || is_refused(ecat_segment_open(&slaves, table, len, true, &told), slaves.at, &told);
    long hits = refused;
    granted = -1;
    if (!is_over) {
        long before = called;
        call_failed(&m);
        call_each(&m, &slaves);
        if (called != before) fprintf(stderr, "refused: the allocator was called %ld times\n", called - before);
        must(called == before, "no call between an open and a drop calls the allocator");
    }
    ecat_drop(&m);
    ecat_segment_drop(&slaves);
    return hits > 0;
}

int main(int argc, char **argv) {
    FILE *f = argc > 1 ? fopen(argv[1], "rb") : NULL;
    size_t len = f ? fread(table, 1, sizeof table, f) : 0;
    must(len > 0, "there is a table");
    for (int alone = 0; alone < 2; alone++) {
        long grant = 0;
        while (try_opens(len, grant, alone)) grant++;
        printf("%ld allocations refused in turn, %s; 0 calls of the allocator between open and drop\n", grant, alone ? "one alone" : "from each on");
    }
    return 0;
}
