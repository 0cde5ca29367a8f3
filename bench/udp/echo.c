/* Answers each datagram at two UDP ports of the loopback address by one of another length: `echo P0 P1 TURNS SIZES0 SIZES1`. SIZES are pairs
   as 15:8,8:15 - a datagram of 15 bytes is answered by its first 8, and one of 8 bytes by these and zeros, 15 in all. Any other datagram
   isn't answered. Each port has a thread of its own, which calls recvfrom so many times, and waits 200 ms each time. */
#include <arpa/inet.h>
#include <netinet/in.h>
#include <pthread.h>
#include <stdio.h>
#include <stdlib.h>
#include <string.h>
#include <sys/socket.h>
#include <sys/time.h>
#include <unistd.h>

enum { ROOM = 81, PORTS = 2 };

struct side {
    int socket;
    unsigned long turns;
    /* For each length how long the answer is, and 0 where there is none. */
    int answer[ROOM + 1];
};

static int open_socket(unsigned port) {
    struct timeval wait = {0, 200000};
    struct sockaddr_in at = {.sin_family = AF_INET, .sin_port = htons(port), .sin_addr.s_addr = htonl(INADDR_LOOPBACK)};
    int made = socket(AF_INET, SOCK_DGRAM | SOCK_CLOEXEC, 0);
    if (made < 0 || bind(made, (struct sockaddr *)&at, sizeof at) != 0 || setsockopt(made, SOL_SOCKET, SO_RCVTIMEO, &wait, sizeof wait) != 0) {
        perror("echo");
        exit(4);
    }
    return made;
}

static void read_sizes(struct side *side, const char *words) {
    int from, to, read;
    while (sscanf(words, "%d:%d%n", &from, &to, &read) == 2) {
        if (from < 1 || from > ROOM || to < 1 || to > ROOM) {
            fprintf(stderr, "echo: a length of 1 to %d is wanted\n", ROOM);
            exit(2);
        }
        side->answer[from] = to;
        words += read + (words[read] == ',');
    }
}

static void *serve(void *given) {
    struct side *side = given;
    for (unsigned long turn = 0; turn < side->turns; turn++) {
        char bytes[ROOM] = {0};
        struct sockaddr_in sender;
        socklen_t length = sizeof sender;
        ssize_t heard = recvfrom(side->socket, bytes, sizeof bytes, 0, (struct sockaddr *)&sender, &length);
        if (heard > 0 && side->answer[heard] > 0) {
            ssize_t sent = sendto(side->socket, bytes, side->answer[heard], MSG_NOSIGNAL, (struct sockaddr *)&sender, length);
            (void)sent;
        }
    }
    return NULL;
}

int main(int count, char **words) {
    static struct side sides[PORTS];
    pthread_t threads[PORTS];
    if (count != 6) {
        fprintf(stderr, "echo: P0 P1 TURNS SIZES0 SIZES1 are wanted\n");
        return 2;
    }
    for (int place = 0; place < PORTS; place++) {
        sides[place].turns = strtoul(words[3], NULL, 10);
        read_sizes(&sides[place], words[4 + place]);
        sides[place].socket = open_socket(strtoul(words[1 + place], NULL, 10));
    }
    for (int place = 0; place < PORTS; place++)
        if (pthread_create(&threads[place], NULL, serve, &sides[place]) != 0)
            return 4;
    for (int place = 0; place < PORTS; place++)
        pthread_join(threads[place], NULL);
    return 0;
}
