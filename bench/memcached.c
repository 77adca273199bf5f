// A client of memcached by its text protocol, to measure it by beside servers that `redis-benchmark` asks in the same way: some connections on
// this machine's loopback behind one epoll, on each of which so many requests are under way, under keys drawn from 100,000. It is bounded in
// connections, requests and time.
//
//     memcached PORT get|set REQUESTS CLIENTS IN_FLIGHT SIZE
//
// prints the replies that came and the seconds that it took by the clock. The protocol: https://github.com/memcached/memcached/blob/master/doc/protocol.txt
#define _GNU_SOURCE
#include <arpa/inet.h>
#include <netinet/tcp.h>
#include <stdbool.h>
#include <stdint.h>
#include <stdio.h>
#include <stdlib.h>
#include <string.h>
#include <sys/epoll.h>
#include <sys/socket.h>
#include <time.h>
#include <unistd.h>

enum { MOST_CLIENTS = 1000, MOST_IN_FLIGHT = 64, MOST_SIZE = 4096, MOST_SECONDS = 120, KEYS = 100000, ROOM = 1 << 18 };

// One connection: how many replies are to come, and how many bytes of a line have come that is to end one, of which these are the first.
struct connection {
    int socket, awaited;
    size_t length;
    char line[8];
};

static bool is_set;
static int in_flight, size;
static long asked, requests;
static uint64_t drawn = 1;

static double now(void) {
    struct timespec it;
    clock_gettime(CLOCK_MONOTONIC, &it);
    return it.tv_sec + it.tv_nsec / 1e9;
}

// The next number of xorshift64.
static uint64_t draw(void) {
    drawn ^= drawn << 13;
    drawn ^= drawn >> 7;
    return drawn ^= drawn << 17;
}

// Asks as much as may be under way. The socket's buffer takes all of it, as no more is under way than it has room for.
static bool ask(struct connection *it) {
    static char out[MOST_IN_FLIGHT * (MOST_SIZE + 64)];
    size_t length = 0;
    for (; it->awaited < in_flight && asked < requests; it->awaited++, asked++) {
        int key = draw() % KEYS;
        length += is_set ? sprintf(out + length, "set key:%012d 0 0 %d\r\n", key, size) : sprintf(out + length, "get key:%012d\r\n", key);
        if (!is_set) continue;
        memset(out + length, 'x', size);
        memcpy(out + length + size, "\r\n", 2);
        length += size + 2;
    }
    return length == 0 || send(it->socket, out, length, MSG_NOSIGNAL) == (ssize_t)length;
}

// Takes bytes that came, and answers how many replies they end: each by a line of its own.
static int take(struct connection *it, const char *bytes, size_t count) {
    const char *last = is_set ? "STORED\r" : "END\r";
    int ended = 0;
    for (size_t i = 0; i < count; i++) {
        if (bytes[i] == '\n') {
            ended += it->length == strlen(last) && memcmp(it->line, last, it->length) == 0;
            it->length = 0;
        } else {
            if (it->length < sizeof it->line) it->line[it->length] = bytes[i];
            it->length++;
        }
    }
    return ended;
}

int main(int count, char **words) {
    if (count != 7 || (strcmp(words[2], "get") != 0 && strcmp(words[2], "set") != 0)) {
        fprintf(stderr, "usage: memcached PORT get|set REQUESTS CLIENTS IN_FLIGHT SIZE\n");
        return 2;
    }
    int port = atoi(words[1]), clients = atoi(words[4]), one = 1;
    is_set = strcmp(words[2], "set") == 0;
    requests = atol(words[3]);
    in_flight = atoi(words[5]);
    size = atoi(words[6]);
    if (requests < 1 || clients < 1 || clients > MOST_CLIENTS || in_flight < 1 || in_flight > MOST_IN_FLIGHT || size < 1 || size > MOST_SIZE) return 2;
    struct connection *all = calloc(clients, sizeof *all);
    char *room = malloc(ROOM);
    int poll = epoll_create1(0);
    for (int i = 0; i < clients; i++) {
        struct sockaddr_in to = {.sin_family = AF_INET, .sin_port = htons(port), .sin_addr.s_addr = htonl(INADDR_LOOPBACK)};
        struct epoll_event event = {.events = EPOLLIN, .data.u32 = i};
        all[i].socket = socket(AF_INET, SOCK_STREAM, 0);
        if (connect(all[i].socket, (void *)&to, sizeof to) < 0) return 1;
        setsockopt(all[i].socket, IPPROTO_TCP, TCP_NODELAY, &one, sizeof one);
        epoll_ctl(poll, EPOLL_CTL_ADD, all[i].socket, &event);
    }
    double began = now();
    long replies = 0;
    for (int i = 0; i < clients; i++) {
        if (!ask(&all[i])) return 1;
    }
    while (replies < requests && now() < began + MOST_SECONDS) {
        struct epoll_event events[256];
        int ready = epoll_wait(poll, events, 256, 1000);
        for (int i = 0; i < ready; i++) {
            struct connection *it = &all[events[i].data.u32];
            ssize_t came = recv(it->socket, room, ROOM, 0);
            if (came <= 0) return 1;
            int ended = take(it, room, came);
            it->awaited -= ended;
            replies += ended;
            // As `redis-benchmark` does: the next ones, once all that were asked together are answered.
            if (it->awaited == 0 && !ask(it)) return 1;
        }
    }
    printf("%ld %f\n", replies, now() - began);
    return replies == requests ? 0 : 1;
}
