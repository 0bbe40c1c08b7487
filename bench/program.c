/* How much stack a program needs, preloaded into it: its main is called on a stack that is painted below, and when it returns standard
 * error says how much of the paint is gone. */
#define _GNU_SOURCE
#include <dlfcn.h>
#include <stddef.h>
#include <stdio.h>

enum { STACK = 1 << 20, PAINT = 0x5A };

typedef int program(int, char **, char **);

static program *its_main;

static int nothing(int count, char **arguments, char **environment) {
    (void)count, (void)arguments, (void)environment;
    return 0;
}

/* Paints from the top down, so that the stack grows page by page. */
static __attribute__((noinline)) void paint(volatile unsigned char *top) {
    for (size_t i = 1; i <= STACK; i++)
        top[-(ptrdiff_t)i] = PAINT;
}

static __attribute__((noinline)) size_t gone(volatile unsigned char *top) {
    size_t clean = STACK;
    while (clean > 0 && top[-(ptrdiff_t)clean] == PAINT)
        clean--;
    return clean;
}

/* A place below the frames of this function and of paint. */
static __attribute__((noinline)) size_t used(program *which, int count, char **arguments, char **environment, int *status) {
    volatile unsigned char *top = (volatile unsigned char *)__builtin_frame_address(0) - 512;
    paint(top);
    *status = which(count, arguments, environment);
    return gone(top);
}

static int painted(int count, char **arguments, char **environment) {
    int status;
    size_t none = used(nothing, count, arguments, environment, &status);
    size_t all = used(its_main, count, arguments, environment, &status);
    fprintf(stderr, "%zu\n", all - none);
    return status;
}

int __libc_start_main(program *start, int count, char **arguments, void (*init)(void), void (*fini)(void), void (*unload)(void), void *end) {
    int (*real)(program *, int, char **, void (*)(void), void (*)(void), void (*)(void), void *);
    *(void **)&real = dlsym(RTLD_NEXT, "__libc_start_main");
    its_main = start;
    return real(painted, count, arguments, init, fini, unload, end);
}
