// Preloaded into a program: of the threads that it asks for, those are refused whose bit stands in REFUSED.
#define _GNU_SOURCE
#include <dlfcn.h>
#include <errno.h>
#include <pthread.h>
#include <stdatomic.h>
#include <stdlib.h>

typedef int begin_thread(pthread_t *, const pthread_attr_t *, void *(*)(void *), void *);

static atomic_ulong asked;

int pthread_create(pthread_t *thread, const pthread_attr_t *how, void *(*work)(void *), void *with) {
    begin_thread *begin = (begin_thread *)dlsym(RTLD_NEXT, "pthread_create");
    unsigned long number = atomic_fetch_add(&asked, 1);
    unsigned long long bits = strtoull(getenv("REFUSED"), 0, 10);
    return number < 64 && (bits >> number & 1) ? EAGAIN : begin(thread, how, work, with);
}
