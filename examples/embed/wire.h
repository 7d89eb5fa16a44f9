/* A wire over a UDP socket or over a network card, with a time at which waiting ends. */
#include "ecat.h"

#include <arpa/inet.h>
#include <linux/if_packet.h>
#include <net/if.h>
#include <poll.h>
#include <stdio.h>
#include <stdlib.h>
#include <string.h>
#include <sys/socket.h>
#include <time.h>

#define HEADING 14

struct wire {
    int socket;
    size_t heading; /* how many bytes stand before a payload: none over UDP */
    uint8_t sent[HEADING + ECAT_FRAME], came[HEADING + 1500];
};

/* the Ethernet header: to all, from this master, EtherType EtherCAT */
static const uint8_t heading[HEADING] = {255, 255, 255, 255, 255, 255, 0, 0, 0, 0x45, 0x43, 1, 0x88, 0xA4};

static inline int64_t nanoseconds(void) {
    struct timespec t;
    clock_gettime(CLOCK_MONOTONIC, &t);
    return (int64_t)t.tv_sec * 1000000000 + t.tv_nsec;
}

/* Opens the wire that a name says, an address with a port or an interface, and returns whether it is open. */
static inline bool wire_open(struct wire *w, const char *name) {
    char address[64];
    int port = 0;
    memset(w, 0, sizeof *w);
    if (sscanf(name, "%63[0-9.]:%d", address, &port) == 2) {
        struct sockaddr_in at = {.sin_family = AF_INET, .sin_port = htons((uint16_t)port)};
        w->socket = socket(AF_INET, SOCK_DGRAM, 0);
        return inet_pton(AF_INET, address, &at.sin_addr) == 1 && connect(w->socket, (struct sockaddr *)&at, sizeof at) == 0;
    }
    struct sockaddr_ll at = {.sll_family = AF_PACKET, .sll_protocol = htons(0x88A4), .sll_ifindex = (int)if_nametoindex(name)};
    w->heading = HEADING;
    w->socket = socket(AF_PACKET, SOCK_RAW, 0);
    return w->socket >= 0 && bind(w->socket, (struct sockaddr *)&at, sizeof at) == 0;
}

/* The room for the next frame. */
static inline uint8_t *wire_room(struct wire *w) { return w->sent + w->heading; }

/* Sends the `len` bytes in the room, and returns whether the system took them. A card's frame has at least 60 bytes. */
static inline bool wire_send(struct wire *w, size_t len) {
    size_t size = w->heading + len;
    memcpy(w->sent, heading, w->heading);
    if (w->heading && size < 60) {
        memset(w->sent + size, 0, 60 - size);
        size = 60;
    }
    return send(w->socket, w->sent, size, 0) == (ssize_t)size;
}

/* Waits for the next payload, up to a time of the clock. Returns its length, or 0 if none came in time. Our own frames are passed
   over. */
static inline size_t wire_receive(struct wire *w, int64_t end) {
    for (;;) {
        int64_t left = end - nanoseconds();
        struct timespec wait = {left > 0 ? left / 1000000000 : 0, left > 0 ? left % 1000000000 : 0};
        struct pollfd ready = {.fd = w->socket, .events = POLLIN};
        if (ppoll(&ready, 1, &wait, NULL) <= 0) return 0;
        ssize_t count = recv(w->socket, w->came, sizeof w->came, MSG_DONTWAIT);
        if (count <= (ssize_t)w->heading) continue;
        if (!w->heading || (!memcmp(w->came + 12, heading + 12, 2) && memcmp(w->came + 6, heading + 6, 6))) return (size_t)count - w->heading;
    }
}

/* The payload that came last. */
static inline const uint8_t *wire_came(const struct wire *w) { return w->came + w->heading; }
