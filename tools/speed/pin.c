// Preloaded before the project's programs of threads, to measure them as tools/peers/threads measures itself: each thread on a
// processor of its own, in slices of 1 ms, all of them begin together, and at the end a line on standard error with the nanoseconds from the first
// start to the last end, and the share of them that the threads were on a processor. WORKERS says how many threads work.
//
// A join of these programs makes a thread for its first closure and runs the second itself. So a thread's work begins behind its
// last pthread_create, and ends before its first pthread_join or with its body: of four, thread 0 makes 1 and 2, and 1 makes 3.
#define _GNU_SOURCE
#include <dlfcn.h>
#include <pthread.h>
#include <sched.h>
#include <stdatomic.h>
#include <stdint.h>
#include <stdio.h>
#include <stdlib.h>
#include <sys/syscall.h>
#include <time.h>
#include <unistd.h>

struct span { int64_t start, end, cpu; };

static atomic_int ready;
static int workers;
static struct span spans[4];
static _Thread_local int self, made;
static _Thread_local struct span *mine;

static int64_t now(clockid_t clock) {
    struct timespec t;
    clock_gettime(clock, &t);
    return t.tv_sec * 1000000000ll + t.tv_nsec;
}

static void pin(int thread) {
    uint64_t slices[6] = {48, 0, 0, 1000000, 0, 0};
    cpu_set_t set;
    self = thread;
    CPU_ZERO(&set);
    CPU_SET(self % sysconf(_SC_NPROCESSORS_ONLN), &set);
    syscall(SYS_sched_setattr, 0, slices, 0);
    sched_setaffinity(0, sizeof set, &set);
}

static int makes(int thread) { return workers == 4 ? (thread == 0 ? 2 : thread == 1) : thread == 0; }

static void work(void) {
    usleep(2000);                       // who slept a little is run sooner
    atomic_fetch_add(&ready, 1);
    while (atomic_load(&ready) < workers) sched_yield();
    mine = &spans[self];
    mine->start = now(CLOCK_MONOTONIC);
    mine->cpu = -now(CLOCK_THREAD_CPUTIME_ID);
}

static void rest(void) {
    if (!mine || mine->end) return;
    mine->cpu += now(CLOCK_THREAD_CPUTIME_ID);
    mine->end = now(CLOCK_MONOTONIC);
}

struct start { void *(*body)(void *); void *argument; int thread; };

static void *begin(void *given) {
    struct start start = *(struct start *)given;
    free(given);
    pin(start.thread);
    if (!makes(self)) work();
    void *result = start.body(start.argument);
    rest();
    return result;
}

int pthread_create(pthread_t *thread, const pthread_attr_t *attr, void *(*body)(void *), void *argument) {
    int (*create)(pthread_t *, const pthread_attr_t *, void *(*)(void *), void *) = dlsym(RTLD_NEXT, "pthread_create");
    struct start *start = malloc(sizeof *start);
    *start = (struct start){body, argument, self == 0 ? made + 1 : 3};
    int result = create(thread, attr, begin, start);
    if (++made == makes(self)) work();
    return result;
}

int pthread_join(pthread_t thread, void **result) {
    int (*join)(pthread_t, void **) = dlsym(RTLD_NEXT, "pthread_join");
    rest();
    return join(thread, result);
}

__attribute__((constructor)) static void first(void) {
    workers = atoi(getenv("WORKERS"));
    pin(0);
}

// How the programs end.
void _exit(int status) {
    int64_t start = INT64_MAX, end = 0, cpu = 0;
    for (int i = 0; i < workers; i++) {
        if (spans[i].start < start) start = spans[i].start;
        if (spans[i].end > end) end = spans[i].end;
        cpu += spans[i].cpu;
    }
    if (end) fprintf(stderr, "%lld %.3f\n", (long long)(end - start), (double)cpu / ((double)(end - start) * workers));
    syscall(SYS_exit_group, status);
    __builtin_unreachable();
}
