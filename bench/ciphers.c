/* Times one step of each one-way function: the proved code against C. Each password is the last
   answer, the runs are interleaved, and the best of them counts. */
#include "baselines.h"
#include <stdio.h>
#include <time.h>

step guard_speck_step, guard_present_step;

static step *const proved[KINDS] = { guard_speck_step, guard_present_step, guard_present_step };

enum { RUNS = 101, CALLS = 1000, INPUTS = 1000000, MOST = 32 };

static double now(void)
{
    struct timespec t;
    clock_gettime(CLOCK_MONOTONIC, &t);
    return t.tv_sec * 1e9 + t.tv_nsec;
}

static volatile uint64_t sink;

static double timed(step *run)
{
    uint64_t password = sink;
    double start = now();
    for (int i = 0; i < CALLS; i++)
        password = run(0x1234, 0x0123456789abcdef, password);
    double end = now();
    sink = password;
    return (end - start) / CALLS;
}

static uint64_t seed = 1;

static uint64_t random64(void)
{
    seed ^= seed << 13;
    seed ^= seed >> 7;
    seed ^= seed << 17;
    return seed * 0x2545f4914f6cdd1d;
}

/* How often some C version and the proved code differ. Half of the high halves are of 16 bits. */
static int differences(void)
{
    int count = 0;
    for (int i = 0; i < INPUTS; i++) {
        uint64_t high = random64() >> (i % 2 ? 48 : 0), low = random64(), password = random64();
        for (const struct baseline *b = by_gcc; b->name; b++)
            count += b->run(high, low, password) != proved[b->kind](high, low, password);
    }
    return count;
}

static void keep_best(double *best, double time)
{
    if (*best == 0 || time < *best)
        *best = time;
}

int main(void)
{
    int wrong = differences();
    printf("differences on %d random inputs: %d\n", INPUTS, wrong);

    double ours[KINDS] = { 0 }, gcc[MOST] = { 0 }, clang[MOST] = { 0 };
    for (int run = 0; run < RUNS; run++) {
        keep_best(&ours[SPECK], timed(guard_speck_step));
        keep_best(&ours[PRESENT], timed(guard_present_step));
        for (int i = 0; by_gcc[i].name; i++) {
            keep_best(&gcc[i], timed(by_gcc[i].run));
#ifdef CLANG
            keep_best(&clang[i], timed(by_clang[i].run));
#endif
        }
    }
    ours[PRESENT_AHEAD] = ours[PRESENT];

    printf("%-32s %9s %9s %13s\n", "ns for one step", "gcc -O3", "clang -O3", "Rattle / gcc");
    double best[KINDS] = { 0 };
    for (int i = 0; by_gcc[i].name; i++) {
        printf("%-32s %9.1f %9.1f %13.2f\n", by_gcc[i].name, gcc[i], clang[i], ours[by_gcc[i].kind] / gcc[i]);
        keep_best(&best[by_gcc[i].kind], gcc[i]);
    }
    printf("%-32s %9.1f, %.2f of the best by gcc\n", "Rattle, Speck", ours[SPECK], ours[SPECK] / best[SPECK]);
    printf("%-32s %9.1f, %.2f of the best by gcc, %.2f of the best with the same key schedule\n", "Rattle, PRESENT",
        ours[PRESENT], ours[PRESENT] / best[PRESENT], ours[PRESENT] / best[PRESENT_AHEAD]);
    return wrong != 0;
}
