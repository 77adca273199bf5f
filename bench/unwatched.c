// Refuses to watch connections, as a machine without memory for it: the second one that the program registers with epoll, and no other.
// Built and used by edge.py; nothing of it is proved.
#define _GNU_SOURCE
#include <dlfcn.h>
#include <errno.h>
#include <stdatomic.h>
#include <sys/epoll.h>
#include <sys/socket.h>

typedef int (*Control)(int, int, int, struct epoll_event *);

static atomic_long registered;

// A listener has no peer.
static int is_connection(int socket) {
    struct sockaddr_storage peer;
    socklen_t size = sizeof peer;
    return getpeername(socket, (struct sockaddr *)&peer, &size) == 0;
}

int epoll_ctl(int watch, int what, int socket, struct epoll_event *event) {
    Control control = (Control)dlsym(RTLD_NEXT, "epoll_ctl");
    if (what == EPOLL_CTL_ADD && is_connection(socket) && atomic_fetch_add(&registered, 1) + 1 == 2) {
        errno = ENOMEM;
        return -1;
    }
    return control(watch, what, socket, event);
}
