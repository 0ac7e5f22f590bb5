// Holds root_or, compiled from the proved crate, to the hardware's square root bit for bit, and times both.
// root [quick]: exits 1 if any input differs.
#include <math.h>
#include <stdint.h>
#include <stdio.h>
#include <stdlib.h>
#include <string.h>
#include <time.h>

extern float root_or(float x, float other);

static const float OTHER = -7.0f;

// The hardware's root with the same refusals, behind a call as root_or is.
__attribute__((noinline)) static float hardware(float x, float other) {
    return x >= 0.0f ? sqrtf(x) : other;
}

static float of_bits(uint32_t b) { float x; memcpy(&x, &b, 4); return x; }
static uint32_t bits_of(float x) { uint32_t b; memcpy(&b, &x, 4); return b; }

static uint64_t state = 1;
static uint32_t next(void) {
    state += 0x9e3779b97f4a7c15ull;
    uint64_t z = state;
    z = (z ^ (z >> 30)) * 0xbf58476d1ce4e5b9ull;
    z = (z ^ (z >> 27)) * 0x94d049bb133111ebull;
    return (uint32_t)((z ^ (z >> 31)) >> 32);
}

static uint64_t compared = 0, different = 0;
static void compare(uint32_t b) {
    uint32_t r = bits_of(root_or(of_bits(b), OTHER)), h = bits_of(hardware(of_bits(b), OTHER));
    compared++;
    if (r != h && different++ < 10) printf("%08x: %08x, hardware %08x\n", b, r, h);
}

// Every exponent and sign: the ends of its range and `each` values in it. Then squares of 24 digits and their neighbours.
static void compare_all(uint32_t each) {
    static const uint32_t ends[] = {0, 1, 2, 3, 0x3fffff, 0x400000, 0x7ffffd, 0x7ffffe, 0x7fffff};
    for (uint32_t e = 0; e < 512; e++) {
        for (uint32_t i = 0; i < 9; i++) compare(e << 23 | ends[i]);
        uint32_t n = e < 255 ? each : each / 64;
        for (uint32_t i = 0; i < n; i++) compare(e << 23 | (next() & 0x7fffff));
    }
    for (uint32_t i = 0; i < each * 16; i++) {
        float f = (float)(next() & 0xffffff);
        uint32_t b = bits_of(f * f);
        compare(b - 1);
        compare(b);
        compare(b + 1);
    }
}

// CPU time, not the clock on the wall: what other jobs take of the machine does not count.
static double now(void) {
    struct timespec t;
    clock_gettime(CLOCK_PROCESS_CPUTIME_ID, &t);
    return 1e9 * t.tv_sec + t.tv_nsec;
}

#define COUNT (1 << 15)
#define RUNS 41
static float inputs[COUNT];

static int ascending(const void *a, const void *b) {
    double x = *(const double *)a, y = *(const double *)b;
    return (x > y) - (x < y);
}

// ns per call over RUNS runs, sorted. Each call waits for the last one's result, or none does.
#define TIMED(name, argument) \
    static void name(float (*f)(float, float), double *took) { \
        for (int run = 0; run < RUNS; run++) { \
            volatile float sink; \
            float r = 0.0f; \
            uint32_t all = 0; \
            double start = now(); \
            for (int i = 0; i < COUNT; i++) { \
                r = f(argument, OTHER); \
                all ^= bits_of(r); \
            } \
            took[run] = (now() - start) / COUNT; \
            sink = r + (float)all; \
            (void)sink; \
        } \
        qsort(took, RUNS, sizeof took[0], ascending); \
    }
TIMED(one_by_one, inputs[i] + 0.0f * r)
TIMED(side_by_side, inputs[i])

// Medians, with the range of the middle half. The hardware's side by side reads 0.8 or 2.3 ns on the machine this was written
// on, from one execution to the next. Neither alignment nor fixed addresses change that and the cause was not found, so no
// ratio is printed for it.
static void time_both(const char *what, uint32_t from, uint32_t span) {
    double r[RUNS], h[RUNS];
    for (int i = 0; i < COUNT; i++) inputs[i] = of_bits(from + next() % span);
    one_by_one(root_or, r);
    one_by_one(hardware, h);
    printf("root: %s, one by one: %.1f ns (%.1f to %.1f), hardware %.1f ns (%.1f to %.1f), ratio %.1f\n", what,
           r[RUNS / 2], r[RUNS / 4], r[RUNS * 3 / 4], h[RUNS / 2], h[RUNS / 4], h[RUNS * 3 / 4], r[RUNS / 2] / h[RUNS / 2]);
    side_by_side(root_or, r);
    side_by_side(hardware, h);
    printf("root: %s, side by side: %.1f ns (%.1f to %.1f), hardware %.1f ns (%.1f to %.1f)\n", what,
           r[RUNS / 2], r[RUNS / 4], r[RUNS * 3 / 4], h[RUNS / 2], h[RUNS / 4], h[RUNS * 3 / 4]);
}

int main(int argc, char **argv) {
    int quick = argc > 1 && strcmp(argv[1], "quick") == 0;
    compare_all(quick ? 10000 : 200000);
    printf("root: %llu inputs, %llu differ\n", (unsigned long long)compared, (unsigned long long)different);
    time_both("0.25 to 1,000,000", 0x3e800000, 0x0af42400);
    time_both("normal values", 0x00800000, 0x7f000000);
    time_both("below the normal values", 1, 0x007fffff);
    return different != 0;
}
