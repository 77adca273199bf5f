// Refuses threads to a program, or lets them begin late: all that it asks for but the first THREADS_GRANTED. Where THREADS_LATE
// is set they begin so many milliseconds late, and else none of them is made. Built and used by hostile.py; nothing of it is proved.
#define _GNU_SOURCE
#include <dlfcn.h>
#include <errno.h>
#include <pthread.h>
#include <stdatomic.h>
#include <stdlib.h>
#include <time.h>

typedef void *(*Routine)(void *);
typedef int (*Create)(pthread_t *, const pthread_attr_t *, Routine, void *);

struct Beginning {
    Routine routine;
    void *argument;
    long milliseconds;
};

static atomic_long asked;

static long number_in(const char *name, long otherwise) {
    const char *text = getenv(name);
    return text ? atol(text) : otherwise;
}

static void *begin_late(void *given) {
    struct Beginning beginning = *(struct Beginning *)given;
    free(given);
    struct timespec pause = {beginning.milliseconds / 1000, beginning.milliseconds % 1000 * 1000000};
    while (nanosleep(&pause, &pause) != 0 && errno == EINTR) {
    }
    return beginning.routine(beginning.argument);
}

int pthread_create(pthread_t *thread, const pthread_attr_t *attributes, Routine routine, void *argument) {
    Create create = (Create)dlsym(RTLD_NEXT, "pthread_create");
    long milliseconds = number_in("THREADS_LATE", 0);
    if (atomic_fetch_add(&asked, 1) < number_in("THREADS_GRANTED", 0)) return create(thread, attributes, routine, argument);
    if (milliseconds <= 0) return EAGAIN;
    struct Beginning *beginning = malloc(sizeof *beginning);
    if (!beginning) return EAGAIN;
    *beginning = (struct Beginning){routine, argument, milliseconds};
    int refused = create(thread, attributes, begin_late, beginning);
    if (refused) free(beginning);
    return refused;
}
