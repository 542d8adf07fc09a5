/* How much stack an operation takes: the stack below is painted, the call is made, and what is left of
   the paint is looked for from the far end. Prints two numbers, in bytes: for solids of 16 vertices, and
   for solids with more crossings than the short list holds (docs/BENCHMARKS.md). No proof bounds them. */
#include "../../include/ozoravesh.h"
#include <stdio.h>

#define DEPTH ((size_t)4 << 20)
#define PAINT 0x5a

/* Needles, long thin tetrahedra side by side: at most 20, A's along x and B's along y. */
#define MOST 20
static double a[12 * MOST], b[12 * MOST];
static uint32_t corners_of_both[12 * MOST];
static double points[3 * 8192];
static uint32_t corners[3 * 16384];
static uint32_t origins[16384];

static void needles(double *p, size_t axis, double up) {
    static const double T[12] = {-60, -0.2, 0, -60, 0.2, 0, 70, 0, -0.2, 70, 0, 0.2};
    static const uint32_t F[12] = {0, 2, 1, 0, 1, 3, 0, 3, 2, 1, 2, 3};
    for (size_t k = 0; k < MOST; k++) {
        for (size_t i = 0; i < 4; i++) {
            p[12 * k + 3 * i + axis] = T[3 * i];
            p[12 * k + 3 * i + 1 - axis] = T[3 * i + 1] + (double)k;
            p[12 * k + 3 * i + 2] = T[3 * i + 2] + up;
        }
        for (size_t i = 0; i < 12; i++) {
            corners_of_both[12 * k + i] = F[i] + 4 * (uint32_t)k;
        }
    }
}

static __attribute__((noinline)) void paint(void) {
    volatile uint8_t below[DEPTH];
    for (size_t i = 0; i < DEPTH; i++) {
        below[i] = PAINT;
    }
}

/* The same place as that of `paint`. */
static __attribute__((noinline)) size_t overwritten(void) {
    volatile uint8_t below[DEPTH];
    size_t left = 0;
    while (left < DEPTH && below[left] == PAINT) {
        left++;
    }
    return DEPTH - left;
}

static __attribute__((noinline)) ozoravesh_made call(size_t many) {
    return ozoravesh_operate(2, a, 12 * many, corners_of_both, 12 * many, b, 12 * many, corners_of_both, 12 * many, points, 3 * 8192,
        corners, 3 * 16384, origins, 16384);
}

static int measure(size_t many, const char *what) {
    paint();
    ozoravesh_made made = call(many);
    size_t bytes = overwritten();
    if (made.answer.number != 0) {
        printf("stack: the operation was refused\n");
        return 1;
    }
    printf("stack: an operation on solids of %lu vertices took %lu bytes (%s; %lu vertices made)\n", (unsigned long)(4 * many),
        (unsigned long)bytes, what, (unsigned long)made.vertices);
    return 0;
}

int main(void) {
    needles(a, 0, 0);
    needles(b, 1, 0.03125);
    return measure(4, "the short list of crossings") | measure(MOST, "the long one too");
}
