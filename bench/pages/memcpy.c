/* The same copies by memcpy, memset and memchr: cc -O2 memcpy.c -o /tmp/memcpy && /tmp/memcpy */
#include <stdio.h>
#include <stdlib.h>
#include <string.h>
#include <time.h>

static double now(void)
{
    struct timespec t;
    clock_gettime(CLOCK_MONOTONIC, &t);
    return t.tv_sec + t.tv_nsec / 1e9;
}

static void print(const char *what, size_t size, int times, double took)
{
    printf("%s, %zu bytes, %d times: %.2f GB/s\n", what, size, times, size * (double)times / took / 1e9);
}

static void measure(size_t size)
{
    int times = size < 16u << 20 ? 64 : 8;
    unsigned char *from = malloc(3 * size + 8192);
    unsigned char *to = malloc(size);
    double took = 0;
    memset(from, 5, 3 * size + 8192);
    for (int i = 0; i < times; i++) {
        double start = now();
        unsigned char *fresh = malloc(size);
        memcpy(fresh, from, size);
        took += now() - start;
        __asm__ volatile("" : : "r"(fresh) : "memory");
        free(fresh);
    }
    print("memcpy, first", size, times, took);
    memset(to, 1, size);
    double start = now();
    for (int i = 0; i < times; i++) {
        memcpy(to, from + 4100, size);
        __asm__ volatile("" : : "r"(to) : "memory");
    }
    print("memcpy, again", size, times, now() - start);
    start = now();
    for (int i = 0; i < times; i++) {
        memmove(from + 4100, from, size);
        __asm__ volatile("" : : "r"(from) : "memory");
    }
    print("memmove, overlapping", size, times, now() - start);
    start = now();
    for (int i = 0; i < times; i++) {
        memset(to, i, size);
        __asm__ volatile("" : : "r"(to) : "memory");
    }
    print("memset", size, times, now() - start);
    start = now();
    for (int i = 0; i < times; i++) {
        for (size_t row = 0; row < size / 4; row++) {
            memcpy(to + 4 * row, from + 12 * row, 4);
            __asm__ volatile("" : : "r"(to) : "memory");
        }
    }
    print("memcpy of 4-byte rows", size, times, now() - start);
    free(from);
    free(to);
}

int main(void)
{
    measure(1u << 20);
    measure(16u << 20);
    return 0;
}
