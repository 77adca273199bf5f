// A client that makes many requests on this machine's loopback and costs less than the servers that it measures: a few threads, each
// with its connections behind one epoll and one buffer for what it reads. It is bounded in connections, requests and time.
//
//     load PORT PATH CONNECTIONS REQUESTS AT_ONCE IN_FLIGHT THREADS
//
// makes so many connections, so many of them at once, each with so many requests, of which so many are under way at a time; the last
// one asks for the end of the connection. It prints a line: responses, faults, bytes, seconds by the clock, and the median and the
// 99th percentile of a request's time in microseconds.
#define _GNU_SOURCE
#include <arpa/inet.h>
#include <errno.h>
#include <netinet/tcp.h>
#include <pthread.h>
#include <stdbool.h>
#include <stdint.h>
#include <stdio.h>
#include <stdlib.h>
#include <string.h>
#include <sys/epoll.h>
#include <sys/socket.h>
#include <time.h>
#include <unistd.h>

enum { MOST_IN_FLIGHT = 64, MOST_THREADS = 16, MOST_SECONDS = 120, ROOM = 1 << 18, HEAD_ROOM = 4096 };

static int port, requests, in_flight;
static char ask[512], ask_last[512];
static size_t ask_length, ask_last_length;

// One connection: what is still to be sent, and where in a response it reads.
struct connection {
    int socket;
    int asked, answered;
    double asked_at[MOST_IN_FLIGHT];
    char out[MOST_IN_FLIGHT * 512];
    size_t out_from, out_to;
    char head[HEAD_ROOM];  // what has come of a head that isn't whole
    size_t head_length;
    long body_left;  // bytes of a body that are to come; in a head: -1
};

struct worker {
    pthread_t thread;
    int connections, at_once;
    long responses, faults;
    uint64_t bytes;
    uint32_t *micros;
};

static double now(void) {
    struct timespec it;
    clock_gettime(CLOCK_MONOTONIC, &it);
    return it.tv_sec + it.tv_nsec / 1e9;
}

static bool dial(struct connection *it, int poll, int number) {
    struct sockaddr_in to = {.sin_family = AF_INET, .sin_port = htons(port), .sin_addr.s_addr = htonl(INADDR_LOOPBACK)};
    int one = 1;
    it->socket = socket(AF_INET, SOCK_STREAM | SOCK_NONBLOCK, 0);
    it->asked = it->answered = 0;
    it->out_from = it->out_to = it->head_length = 0;
    it->body_left = -1;
    if (it->socket < 0) return false;
    setsockopt(it->socket, IPPROTO_TCP, TCP_NODELAY, &one, sizeof one);
    if (connect(it->socket, (void *)&to, sizeof to) < 0 && errno != EINPROGRESS) return false;
    struct epoll_event event = {.events = EPOLLIN | EPOLLOUT | EPOLLET, .data.u32 = number};
    return epoll_ctl(poll, EPOLL_CTL_ADD, it->socket, &event) == 0;
}

// Sends what may be under way; false where the connection is broken.
static bool send_some(struct connection *it) {
    if (it->out_from == it->out_to) {
        it->out_from = it->out_to = 0;
        while (it->asked - it->answered < in_flight && it->asked < requests) {
            bool is_last = it->asked + 1 == requests;
            memcpy(it->out + it->out_to, is_last ? ask_last : ask, is_last ? ask_last_length : ask_length);
            it->out_to += is_last ? ask_last_length : ask_length;
            it->asked_at[it->asked++ % MOST_IN_FLIGHT] = now();
        }
    }
    while (it->out_from < it->out_to) {
        ssize_t count = send(it->socket, it->out + it->out_from, it->out_to - it->out_from, MSG_NOSIGNAL);
        if (count < 0) return errno == EAGAIN || errno == ENOTCONN;
        it->out_from += count;
    }
    return true;
}

static void take_answer(struct worker *by, struct connection *it) {
    by->micros[by->responses++] = (uint32_t)((now() - it->asked_at[it->answered++ % MOST_IN_FLIGHT]) * 1e6);
    it->body_left = -1;
}

// Takes bytes that came; false where they are no response.
static bool take(struct worker *by, struct connection *it, const char *bytes, size_t count) {
    by->bytes += count;
    while (count > 0) {
        if (it->body_left < 0) {
            size_t part = count < HEAD_ROOM - it->head_length ? count : HEAD_ROOM - it->head_length, before = it->head_length;
            memcpy(it->head + before, bytes, part);
            char *end = memmem(it->head, before + part, "\r\n\r\n", 4);
            if (!end) {
                it->head_length = before + part;
                return it->head_length < HEAD_ROOM;
            }
            size_t length = end - it->head + 4;
            *end = 0;
            char *field = strcasestr(it->head, "\ncontent-length:");
            if (strncmp(it->head, "HTTP/1.1 200", 12) != 0) by->faults++;
            it->body_left = field ? strtol(field + 16, 0, 10) : 0;
            it->head_length = 0;
            bytes += length - before;
            count -= length - before;
        }
        size_t part = (size_t)it->body_left < count ? (size_t)it->body_left : count;
        bytes += part;
        count -= part;
        it->body_left -= part;
        if (it->body_left == 0) take_answer(by, it);
    }
    return true;
}

// Does what the connection can do now; false once it has ended, well or not.
static bool go_on(struct worker *by, struct connection *it, char *room) {
    for (;;) {
        if (!send_some(it)) return false;
        ssize_t count = recv(it->socket, room, ROOM, 0);
        if (count < 0) return errno == EAGAIN || errno == ENOTCONN;
        if (count == 0 || !take(by, it, room, count) || it->answered == requests) return false;
    }
}

static void *work(void *given) {
    struct worker *by = given;
    struct connection *all = calloc(by->at_once, sizeof *all);
    char *room = malloc(ROOM);
    int poll = epoll_create1(0), begun = 0, open = 0;
    double until = now() + MOST_SECONDS;
    for (int i = 0; i < by->at_once; i++) all[i].socket = -1;
    while ((begun < by->connections || open > 0) && now() < until) {
        for (int i = 0; i < by->at_once && begun < by->connections; i++) {
            if (all[i].socket >= 0) continue;
            begun++;
            if (dial(&all[i], poll, i)) open++;
            else by->faults += requests;
        }
        struct epoll_event events[256];
        int count = epoll_wait(poll, events, 256, 1000);
        for (int i = 0; i < count; i++) {
            struct connection *it = &all[events[i].data.u32];
            if (it->socket < 0 || go_on(by, it, room)) continue;
            by->faults += requests - it->answered;
            close(it->socket);
            it->socket = -1;
            open--;
        }
    }
    by->faults += open;
    return 0;
}

static int ascending(const void *a, const void *b) {
    uint32_t x = *(const uint32_t *)a, y = *(const uint32_t *)b;
    return (x > y) - (x < y);
}

int main(int count, char **words) {
    if (count != 8) {
        fprintf(stderr, "usage: load PORT PATH CONNECTIONS REQUESTS AT_ONCE IN_FLIGHT THREADS\n");
        return 2;
    }
    port = atoi(words[1]);
    int connections = atoi(words[3]), at_once = atoi(words[5]), threads = atoi(words[7]);
    requests = atoi(words[4]);
    in_flight = atoi(words[6]);
    if (requests < 1 || in_flight < 1 || in_flight > MOST_IN_FLIGHT || threads < 1 || threads > MOST_THREADS || strlen(words[2]) > 100) return 2;
    const char *form = "GET %s HTTP/1.1\r\nHost: localhost:%d\r\nUser-Agent: load\r\nAccept: */*\r\n%s\r\n";
    ask_length = snprintf(ask, sizeof ask, form, words[2], port, "");
    ask_last_length = snprintf(ask_last, sizeof ask_last, form, words[2], port, "Connection: close\r\n");
    struct worker all[MOST_THREADS] = {0};
    double began = now();
    for (int i = 0; i < threads; i++) {
        all[i].connections = connections / threads + (i < connections % threads);
        all[i].at_once = at_once / threads + (i < at_once % threads);
        if (all[i].at_once < 1) all[i].at_once = 1;
        all[i].micros = malloc(sizeof(uint32_t) * ((size_t)all[i].connections * (requests + MOST_IN_FLIGHT) + 1));
        pthread_create(&all[i].thread, 0, work, &all[i]);
    }
    long responses = 0, faults = 0;
    uint64_t bytes = 0;
    for (int i = 0; i < threads; i++) {
        pthread_join(all[i].thread, 0);
        responses += all[i].responses;
        faults += all[i].faults;
        bytes += all[i].bytes;
    }
    double took = now() - began;
    uint32_t *micros = malloc(sizeof(uint32_t) * (responses + 1));
    long put = 0;
    for (int i = 0; i < threads; i++) {
        memcpy(micros + put, all[i].micros, sizeof(uint32_t) * all[i].responses);
        put += all[i].responses;
    }
    qsort(micros, put, sizeof *micros, ascending);
    printf("%ld %ld %lu %.4f %u %u\n", responses, faults, bytes, took, put ? micros[put / 2] : 0, put ? micros[put * 99 / 100] : 0);
    return faults != 0;
}
