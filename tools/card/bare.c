/* A bare exchange over a pair of cards: frames of given lengths go one after another from one card to the other, which sends each
   back as it came. Nothing is done with them. It prints the seconds that the cycles took.

     bare CARD OTHER CYCLES LENGTH.. */
#include <arpa/inet.h>
#include <net/if.h>
#include <netpacket/packet.h>
#include <signal.h>
#include <stdio.h>
#include <stdlib.h>
#include <string.h>
#include <sys/socket.h>
#include <sys/wait.h>
#include <time.h>
#include <unistd.h>

#define ETHER_TYPE 0x88A4
#define ROOM 1514
#define LENGTHS 64

static void must(int holds, const char *what) {
    if (!holds) {
        fprintf(stderr, "bare: %s\n", what);
        exit(1);
    }
}

static int card_of(const char *name) {
    struct sockaddr_ll at = {.sll_family = AF_PACKET, .sll_protocol = htons(ETHER_TYPE), .sll_ifindex = (int)if_nametoindex(name)};
    struct timeval patience = {.tv_sec = 2};
    int card = socket(AF_PACKET, SOCK_RAW, 0);
    must(card >= 0 && at.sll_ifindex != 0 && bind(card, (struct sockaddr *)&at, sizeof at) == 0, "no socket on a card");
    must(setsockopt(card, SOL_SOCKET, SO_RCVTIMEO, &patience, sizeof patience) == 0, "no limit to the wait");
    return card;
}

static double now(void) {
    struct timespec t;
    clock_gettime(CLOCK_MONOTONIC, &t);
    return (double)t.tv_sec + (double)t.tv_nsec / 1e9;
}

/* Each frame is sent back as it came. */
static void answer(int card) {
    static unsigned char frame[ROOM];
    for (;;) {
        ssize_t count = recv(card, frame, sizeof frame, 0);
        if (count > 0) must(send(card, frame, (size_t)count, 0) == count, "no answer");
    }
}

int main(int argc, char **argv) {
    static unsigned char frame[ROOM], came[ROOM];
    size_t lengths[LENGTHS];
    must(argc > 4 && argc - 4 <= LENGTHS, "bare CARD OTHER CYCLES LENGTH..");
    long cycles = strtol(argv[3], NULL, 10);
    int count = argc - 4, card = card_of(argv[1]), other = card_of(argv[2]);
    for (int k = 0; k < count; k++) {
        lengths[k] = strtoul(argv[k + 4], NULL, 10);
        must(lengths[k] >= 14 && lengths[k] <= ROOM, "a length is 14 to 1514");
    }
    memset(frame, 0xff, 6);
    memcpy(frame + 6, "\x06\0\0\x45\x43\x01\x88\xa4", 8);
    pid_t child = fork();
    must(child >= 0, "no second process");
    if (child == 0) answer(other);
    double begun = now();
    for (long cycle = 0; cycle < cycles; cycle++)
        for (int k = 0; k < count; k++) {
            must(send(card, frame, lengths[k], 0) == (ssize_t)lengths[k], "a frame isn't sent");
            must(recv(card, came, sizeof came, 0) == (ssize_t)lengths[k], "a frame doesn't come back");
        }
    printf("%.2f\n", now() - begun);
    kill(child, SIGKILL);
    waitpid(child, NULL, 0);
    return 0;
}
