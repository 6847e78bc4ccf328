// Answers each UDP datagram at a port of 127.0.0.1 with as many octets as were asked for: `echo PORT OCTETS`.
#include <arpa/inet.h>
#include <stdlib.h>
#include <sys/socket.h>

int main(int argc, char **argv) {
    if (argc != 3) return 2;
    struct sockaddr_in own = {.sin_family = AF_INET, .sin_port = htons(atoi(argv[1]))}, from;
    own.sin_addr.s_addr = htonl(INADDR_LOOPBACK);
    int socket_ = socket(AF_INET, SOCK_DGRAM, 0);
    static char octets[2048];
    if (bind(socket_, (struct sockaddr *)&own, sizeof own)) return 1;
    for (;;) {
        socklen_t length = sizeof from;
        if (recvfrom(socket_, octets, sizeof octets, 0, (struct sockaddr *)&from, &length) >= 0)
            sendto(socket_, octets, atoi(argv[2]), 0, (struct sockaddr *)&from, length);
    }
}
