// Keeps so many equal UDP datagrams under way to a port of 127.0.0.1 for so many seconds, and prints how many were answered
// in one: `load PORT HEX COUNT SECONDS`. What isn't answered within 50 ms is sent again.
#include <arpa/inet.h>
#include <poll.h>
#include <stdio.h>
#include <stdlib.h>
#include <string.h>
#include <sys/socket.h>
#include <time.h>

static double now(void) {
    struct timespec at;
    clock_gettime(CLOCK_MONOTONIC, &at);
    return at.tv_sec + at.tv_nsec / 1e9;
}

int main(int argc, char **argv) {
    if (argc != 5) return 2;
    struct sockaddr_in to = {.sin_family = AF_INET, .sin_port = htons(atoi(argv[1]))};
    to.sin_addr.s_addr = htonl(INADDR_LOOPBACK);
    int socket_ = socket(AF_INET, SOCK_DGRAM, 0), count = atoi(argv[3]), length = strlen(argv[2]) / 2;
    unsigned char octets[2048], heard[2048];
    for (int i = 0; i < length; i++) sscanf(argv[2] + 2 * i, "%2hhx", octets + i);
    if (connect(socket_, (struct sockaddr *)&to, sizeof to)) return 1;
    double begin = now(), end = begin + atof(argv[4]);
    long answered = 0, again = 0, size = 0;
    for (int i = 0; i < count; i++) send(socket_, octets, length, 0);
    while (now() < end) {
        struct pollfd waits = {.fd = socket_, .events = POLLIN};
        if (poll(&waits, 1, 50) <= 0) {
            again++;
            for (int i = 0; i < count; i++) send(socket_, octets, length, 0);
            continue;
        }
        long got = recv(socket_, heard, sizeof heard, 0);
        if (got > 0) {
            answered++;
            size = got;
            send(socket_, octets, length, 0);
        }
    }
    printf("%.0f a second, of %ld octets each, %ld times nothing came\n", answered / (now() - begin), size, again);
    return 0;
}
