/* The slaves of a table on a UDP port of 127.0.0.1, each with an application that copies its outputs to its inputs.

     segment TABLE PORT FRAMES */
#include "ecat.h"

#include <arpa/inet.h>
#include <stdio.h>
#include <stdlib.h>
#include <sys/socket.h>

/* a slave has so many bytes of outputs, or of inputs, at most */
#define BYTES 2730

static char table[1 << 20];
static uint8_t frame[1500];

/* Makes a firmware step of each slave, whose application then copies its outputs to its inputs. */
static void serve(struct ecat_segment *slaves) {
    for (size_t slave = 0; ecat_segment_serve(slaves, slave); slave++) {
        uint8_t bytes[BYTES] = {0};
        ecat_segment_outputs(slaves, slave, bytes, sizeof bytes);
        ecat_segment_inputs(slaves, slave, bytes, sizeof bytes);
    }
}

int main(int argc, char **argv) {
    struct ecat_segment slaves = {0};
    struct ecat_refusal refusal;
    if (argc < 4) { fprintf(stderr, "segment TABLE PORT FRAMES\n"); return 2; }
    FILE *f = fopen(argv[1], "rb");
    size_t len = f ? fread(table, 1, sizeof table, f) : 0;
    if (ecat_segment_open(&slaves, table, len, false, &refusal)) { fprintf(stderr, "segment: %d %s\n", refusal.number, refusal.name); return 3; }
    struct sockaddr_in at = {.sin_family = AF_INET, .sin_port = htons((uint16_t)atoi(argv[2])), .sin_addr = {htonl(INADDR_LOOPBACK)}};
    int wire = socket(AF_INET, SOCK_DGRAM, 0);
    if (wire < 0 || bind(wire, (struct sockaddr *)&at, sizeof at)) { perror("segment"); return 4; }
    printf("listening\n");
    fflush(stdout);
    for (int frames = atoi(argv[3]); frames > 0; frames--) {
        struct sockaddr_in from;
        socklen_t size = sizeof from;
        ssize_t count = recvfrom(wire, frame, sizeof frame, 0, (struct sockaddr *)&from, &size);
        if (count < 0 || !ecat_segment_pass(&slaves, frame, (size_t)count)) continue;
        serve(&slaves);
        if (sendto(wire, frame, (size_t)count, 0, (struct sockaddr *)&from, size) != count) perror("segment");
    }
    ecat_segment_drop(&slaves);
    return 0;
}
