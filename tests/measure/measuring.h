/* What the programs that measure our code share: the processor's time, and the stack that a function touches. */
#ifndef MEASURING_H
#define MEASURING_H
#define _GNU_SOURCE
#include <pthread.h>
#include <stdint.h>
#include <stdio.h>
#include <stdlib.h>
#include <string.h>
#include <sys/mman.h>
#include <time.h>

/* The time of this thread on the processor, in ns. */
static inline double now(void)
{
    struct timespec t;
    clock_gettime(CLOCK_THREAD_CPUTIME_ID, &t);
    return t.tv_sec * 1e9 + t.tv_nsec;
}

static inline double once(void (*f)(void))
{
    double a = now();
    f();
    return now() - a;
}

enum { STACK = 1 << 20, PATTERN = 0xA5 };

struct probe {
    void (*f)(void);
    unsigned char *stack;
    size_t depth;
};

/* Calls f and looks, before the thread goes on, how far below this frame the pattern is gone. */
static inline void *probe(void *at)
{
    struct probe *p = at;
    unsigned char *here = __builtin_frame_address(0), *s = p->stack;
    p->f();
    while (*s == PATTERN)
        s++;
    p->depth = (size_t)(here - s);
    return 0;
}

static inline size_t depth_of(void (*f)(void))
{
    struct probe p = {f, mmap(0, STACK, PROT_READ | PROT_WRITE, MAP_PRIVATE | MAP_ANONYMOUS, -1, 0), 0};
    pthread_attr_t a;
    pthread_t t;
    memset(p.stack, PATTERN, STACK);
    pthread_attr_init(&a);
    if (pthread_attr_setstack(&a, p.stack, STACK) || pthread_create(&t, &a, probe, &p) || pthread_join(t, 0))
        abort();
    munmap(p.stack, STACK);
    return p.depth;
}

static inline void nothing(void) {}

/* The octets of stack that f touches, on a thread whose stack is filled with a pattern, and a function that does nothing does not. */
static inline size_t touched(void (*f)(void)) { return depth_of(f) - depth_of(nothing); }
#endif
