/* A control program over UDP: it lights the lamp, and the two valves follow the first two switches.

     follow CYCLES < TABLE

   A segment of the table answers on port 34980 of this computer. The program ends with status 1 if a cycle isn't taken. */
#include "ecat.h"

#include <arpa/inet.h>
#include <poll.h>
#include <stdio.h>
#include <stdlib.h>
#include <sys/socket.h>
#include <sys/time.h>

static char table[1 << 20];
static char words[ECAT_WORDS];
static uint8_t sent[ECAT_FRAME], came[ECAT_FRAME];

/* A socket to the segment, which waits half a second for an answer. */
static int connect_segment(void) {
    struct sockaddr_in at = {.sin_family = AF_INET, .sin_port = htons(34980), .sin_addr = {htonl(INADDR_LOOPBACK)}};
    struct timeval wait = {.tv_usec = 500000};
    int wire = socket(AF_INET, SOCK_DGRAM, 0);
    if (connect(wire, (struct sockaddr *)&at, sizeof at) || setsockopt(wire, SOL_SOCKET, SO_RCVTIMEO, &wait, sizeof wait)) return -1;
    return wire;
}

/* The length of the next answer, or 0 if none came in time. */
static size_t receive(int wire) {
    ssize_t len = recv(wire, came, sizeof came, 0);
    return len > 0 ? (size_t)len : 0;
}

/* Sends each frame of the start-up, and waits for its answer. Before a poll that asks again it rests. */
static bool start_up(struct ecat *m, int wire) {
    size_t len;
    while (ecat_phase(m) == 0 && (len = ecat_next(m, sent, sizeof sent)) != 0) {
        if (ecat_waits(m)) poll(NULL, 0, 10);
        send(wire, sent, len, 0);
        while ((len = receive(wire)) != 0 && !ecat_take(m, came, len, NULL)) {}
        if (len == 0) ecat_give_up(m);
    }
    return ecat_phase(m) == 1;
}

/* Sends the frames of a cycle, and takes answers until none is missing. A late or foreign one changes nothing. */
static bool cycle(struct ecat *m, int wire) {
    size_t len, missing = 1;
    int parts = ecat_begin(m);
    for (int part = 0; part < parts; part++) send(wire, sent, ecat_part(m, (size_t)part, sent, sizeof sent), 0);
    while (missing && (len = receive(wire)) != 0) ecat_take(m, came, len, &missing);
    return ecat_close(m, NULL, NULL);
}

int main(int argc, char **argv) {
    struct ecat m = {0};
    struct ecat_refusal refusal;
    int cycles = argc > 1 ? atoi(argv[1]) : 10, taken = 0;
    size_t len = fread(table, 1, sizeof table, stdin);
    if (ecat_open(&m, table, len, &refusal)) return fprintf(stderr, "follow: %d %s\n", refusal.number, refusal.name), 3;
    size_t lamp = (size_t)ecat_variable(&m, "lamp"), valves = (size_t)ecat_variable(&m, "valves");
    size_t switches = (size_t)ecat_variable(&m, "switches");
    int wire = connect_segment();
    if (!start_up(&m, wire)) {
        ecat_explain(&m, words, sizeof words);
        return fprintf(stderr, "follow: the start-up failed: %s\n", words), 4;
    }
    ecat_set(&m, lamp, 1);
    for (int k = 0; k < cycles; k++) {
        taken += cycle(&m, wire);
        ecat_set(&m, valves, ecat_get(&m, switches) & 3);
    }
    printf("cycles %d switches %d valves %d\n", taken, (int)ecat_get(&m, switches), (int)ecat_get(&m, valves));
    ecat_drop(&m);
    return taken == cycles ? 0 : 1;
}
