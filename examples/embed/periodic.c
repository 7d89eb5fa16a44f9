/* Runs a cycle each millisecond, by a thread with a clock of its own, and prints how late the thread was.

     periodic WIRE TABLE [MICROSECONDS [CYCLES]]

   WIRE is a UDP port such as 127.0.0.1:34980, or a network card such as eth1. The thread asks for SCHED_FIFO and for memory that
   isn't paged out; what is refused is said. A cycle ends at three quarters of its time at the latest: what hasn't come then is
   missing. It switches the first variable of the table in each cycle. The program ends with status 1 if a cycle wasn't taken, and 4
   if the slaves don't come up. */
#include "wire.h"

#include <pthread.h>
#include <sched.h>
#include <sys/mman.h>

#define BUCKETS 10000

static struct ecat m;
static struct wire wire;
static char table[1 << 20], words[ECAT_WORDS];
static int64_t period = 1000000;
static int cycles = 10000, taken, overruns;
/* how often the thread was late by so many microseconds, and how often a cycle took so many, from its begin to its close */
static int late[BUCKETS], took[BUCKETS];

static void count_in(int *counts, int64_t ns) {
    int64_t us = ns / 1000;
    counts[us < 0 ? 0 : us < BUCKETS ? us : BUCKETS - 1]++;
}

/* The number of microseconds that so many of a million are not above. */
static int quantile(const int *counts, int64_t millionths) {
    int64_t all = 0;
    for (int us = 0; us < BUCKETS; us++)
        if ((all += counts[us]) * 1000000 >= millionths * cycles) return us;
    return BUCKETS;
}

static bool start_up(void) {
    size_t len;
    while (ecat_phase(&m) == 0 && (len = ecat_next(&m, wire_room(&wire), ECAT_FRAME)) != 0) {
        if (ecat_waits(&m)) poll(NULL, 0, 10);
        int64_t end = nanoseconds() + 500000000;
        wire_send(&wire, len);
        while ((len = wire_receive(&wire, end)) != 0 && !ecat_take(&m, wire_came(&wire), len, NULL)) {}
        if (!len) ecat_give_up(&m);
    }
    return ecat_phase(&m) == 1;
}

/* Sends the frames of a cycle, and takes payloads until none is missing or the time is over. */
static bool cycle(int64_t end) {
    size_t len, missing = 1;
    int parts = ecat_begin(&m);
    for (int part = 0; part < parts; part++) wire_send(&wire, ecat_part(&m, (size_t)part, wire_room(&wire), ECAT_FRAME));
    while (missing && (len = wire_receive(&wire, end)) != 0) ecat_take(&m, wire_came(&wire), len, &missing);
    return ecat_close(&m, NULL, NULL);
}

/* Asks for the rights of a real-time thread, and says what is refused. */
static void become_urgent(void) {
    struct sched_param urgent = {.sched_priority = 80};
    int refused = pthread_setschedparam(pthread_self(), SCHED_FIFO, &urgent);
    if (refused) fprintf(stderr, "periodic: no SCHED_FIFO: %s\n", strerror(refused));
    if (mlockall(MCL_CURRENT | MCL_FUTURE)) perror("periodic: memory isn't locked");
}

static void *run(void *unused) {
    (void)unused;
    become_urgent();
    int64_t due = nanoseconds() + period;
    for (int k = 0; k < cycles; k++, due += period) {
        struct timespec at = {due / 1000000000, due % 1000000000};
        while (clock_nanosleep(CLOCK_MONOTONIC, TIMER_ABSTIME, &at, NULL)) {}
        int64_t begun = nanoseconds();
        ecat_set(&m, 0, (uint64_t)k & 1); /* the control program: it reads inputs by ecat_get, and sets outputs */
        taken += cycle(due + period * 3 / 4);
        int64_t ended = nanoseconds();
        count_in(late, begun - due);
        count_in(took, ended - begun);
        /* a cycle whose time is over is left out, so that the ones behind it are in time again */
        for (; ended > due + period; due += period) overruns++;
    }
    return NULL;
}

int main(int argc, char **argv) {
    struct ecat_refusal refusal;
    pthread_t thread;
    if (argc < 3) return fprintf(stderr, "periodic WIRE TABLE [MICROSECONDS [CYCLES]]\n"), 2;
    if (argc > 3) period = (int64_t)atoi(argv[3]) * 1000;
    if (argc > 4) cycles = atoi(argv[4]);
    FILE *f = fopen(argv[2], "rb");
    size_t len = f ? fread(table, 1, sizeof table, f) : 0;
    if (ecat_open(&m, table, len, &refusal)) return fprintf(stderr, "periodic: %d %s\n", refusal.number, refusal.name), 3;
    if (!wire_open(&wire, argv[1])) return perror(argv[1]), 4;
    if (!start_up()) {
        ecat_explain(&m, words, sizeof words);
        return fprintf(stderr, "periodic: the start-up failed: %s\n", words), 4;
    }
    if (pthread_create(&thread, NULL, run, NULL)) return perror("periodic"), 4;
    pthread_join(thread, NULL);
    printf("%d cycles of %d us: %d taken, %d left out\n", cycles, (int)(period / 1000), taken, overruns);
    printf("late by us: half %d, 99 %% %d, 99.9 %% %d, most %d\n", quantile(late, 500000), quantile(late, 990000), quantile(late, 999000), quantile(late, 1000000));
    printf("a cycle took us: half %d, 99 %% %d, 99.9 %% %d, most %d\n", quantile(took, 500000), quantile(took, 990000), quantile(took, 999000), quantile(took, 1000000));
    ecat_drop(&m);
    return taken == cycles ? 0 : 1;
}
