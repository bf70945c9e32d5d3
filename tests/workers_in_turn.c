/* Loaded ahead of the C library, this makes threads that should work at once work in turn. MODE says which:
   lanes: the first two threads of a run hold one lock round their whole work;
   after: those behind the third wait until the first two have ended;
   shards: those behind the third hold one lock;
   none: all run as they would.
   The test makes three runs, of four, four and five threads. */
#define _GNU_SOURCE
#include <dlfcn.h>
#include <pthread.h>
#include <stdlib.h>
#include <string.h>

/* What a thread was to do, in which run, and as which of its threads. */
struct start {
    void *(*work)(void *);
    void *given;
    int run;
    int place;
};

static pthread_mutex_t turn = PTHREAD_MUTEX_INITIALIZER;
static pthread_mutex_t told = PTHREAD_MUTEX_INITIALIZER;
static pthread_cond_t ended = PTHREAD_COND_INITIALIZER;
static int lanes_ended[3];

static void *begin(void *given) {
    struct start start = *(struct start *)given;
    free(given);
    const char *mode = getenv("MODE");
    int lane = start.place < 2;
    int shard = start.place > 2;
    int holds = (lane && !strcmp(mode, "lanes")) || (shard && !strcmp(mode, "shards"));
    if (shard && !strcmp(mode, "after")) {
        pthread_mutex_lock(&told);
        while (lanes_ended[start.run] < 2)
            pthread_cond_wait(&ended, &told);
        pthread_mutex_unlock(&told);
    }
    if (holds)
        pthread_mutex_lock(&turn);
    void *left = start.work(start.given);
    if (holds)
        pthread_mutex_unlock(&turn);
    if (lane) {
        pthread_mutex_lock(&told);
        lanes_ended[start.run]++;
        pthread_cond_broadcast(&ended);
        pthread_mutex_unlock(&told);
    }
    return left;
}

int pthread_create(pthread_t *thread, const pthread_attr_t *attributes, void *(*work)(void *), void *given) {
    static int (*next)(pthread_t *, const pthread_attr_t *, void *(*)(void *), void *);
    static int made;
    if (!next)
        next = (int (*)(pthread_t *, const pthread_attr_t *, void *(*)(void *), void *))dlsym(RTLD_NEXT, "pthread_create");
    struct start *start = malloc(sizeof *start);
    int number = made++;
    start->work = work;
    start->given = given;
    start->run = number < 4 ? 0 : number < 8 ? 1 : 2;
    start->place = number < 8 ? number % 4 : number - 8;
    return next(thread, attributes, begin, start);
}
