/* A control program over a network card, whose frames it carries itself.

     card INTERFACE TABLE [CYCLES] */
#include "ecat.h"

#include <arpa/inet.h>
#include <linux/if_packet.h>
#include <net/if.h>
#include <poll.h>
#include <stdio.h>
#include <stdlib.h>
#include <string.h>
#include <sys/socket.h>
#include <sys/time.h>
#include <time.h>

#define HEADING 14

/* the Ethernet header: to all, from this master, EtherType EtherCAT */
static const uint8_t heading[HEADING] = {255, 255, 255, 255, 255, 255, 0, 0, 0, 0x45, 0x43, 1, 0x88, 0xA4};
static uint8_t sent[HEADING + ECAT_FRAME], came[HEADING + 1500];
static char table[1 << 20], words[ECAT_WORDS];

static int open_card(const char *interface) {
    int card = socket(AF_PACKET, SOCK_RAW, 0);
    struct sockaddr_ll at;
    struct timeval wait = {0, 500000};
    memset(&at, 0, sizeof at);
    at.sll_family = AF_PACKET;
    at.sll_protocol = htons(0x88A4);
    at.sll_ifindex = (int)if_nametoindex(interface);
    if (card < 0 || bind(card, (struct sockaddr *)&at, sizeof at) || setsockopt(card, SOL_SOCKET, SO_RCVTIMEO, &wait, sizeof wait)) {
        perror(interface);
        exit(1);
    }
    return card;
}

/* Sends the `len` bytes of payload that are in `sent` behind the heading, padded to the least length of an Ethernet frame. */
static void send_frame(int card, size_t len) {
    size_t size = len < 46 ? 60 : HEADING + len;
    memcpy(sent, heading, HEADING);
    memset(sent + HEADING + len, 0, size - HEADING - len);
    if (send(card, sent, size, 0) != (ssize_t)size) perror("send");
}

/* Receives the next EtherCAT frame that isn't our own. Returns the length of its payload, or 0 if none came in time. */
static size_t receive_frame(int card) {
    for (;;) {
        ssize_t count = recv(card, came, sizeof came, 0);
        if (count < 0) return 0;
        if (count >= HEADING && !memcmp(came + 12, heading + 12, 2) && memcmp(came + 6, heading + 6, 6)) return (size_t)count - HEADING;
    }
}

int main(int argc, char **argv) {
    struct ecat m = {0};
    struct ecat_refusal refusal;
    struct timespec begun, ended;
    size_t len, missing;
    uint16_t al = 0;
    int cycles = argc > 3 ? atoi(argv[3]) : 1000, taken = 0;
    if (argc < 3) { fprintf(stderr, "card INTERFACE TABLE [CYCLES]\n"); return 2; }
    FILE *f = fopen(argv[2], "rb");
    len = f ? fread(table, 1, sizeof table, f) : 0;
    if (ecat_open(&m, table, len, &refusal)) { fprintf(stderr, "card: %d %s\n", refusal.number, refusal.name); return 3; }
    int card = open_card(argv[1]);
    while (ecat_phase(&m) == 0 && (len = ecat_next(&m, sent + HEADING, ECAT_FRAME)) != 0) {
        if (ecat_waits(&m)) poll(NULL, 0, 10);
        send_frame(card, len);
        while ((len = receive_frame(card)) != 0 && !ecat_take(&m, came + HEADING, len, NULL)) {}
        if (!len) ecat_give_up(&m);
    }
    if (ecat_phase(&m) != 1) {
        ecat_explain(&m, words, sizeof words);
        return fprintf(stderr, "card: the start-up failed: %s\n", words), 4;
    }
    clock_gettime(CLOCK_MONOTONIC, &begun);
    for (int k = 1; k <= cycles; k++) {
        int parts = ecat_begin(&m);
        ecat_set(&m, 0, (uint64_t)k & 1);
        for (int part = 0; part < parts; part++) send_frame(card, ecat_part(&m, (size_t)part, sent + HEADING, ECAT_FRAME));
        for (missing = 1; missing && (len = receive_frame(card)) != 0;) ecat_take(&m, came + HEADING, len, &missing);
        taken += ecat_close(&m, &missing, &al);
    }
    clock_gettime(CLOCK_MONOTONIC, &ended);
    printf("%d cycles, %d taken, AL %04x, %.1f us a cycle\n", cycles, taken, al,
        ((double)(ended.tv_sec - begun.tv_sec) * 1e9 + (double)(ended.tv_nsec - begun.tv_nsec)) / 1e3 / (cycles ? cycles : 1));
    ecat_drop(&m);
    return taken == cycles ? 0 : 1;
}
