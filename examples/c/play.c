/* Case A of the scope paper, played three ways from a reset: as one block, column by column, and by a plan. All three print the same lines. */
#include "wavenet.h"
#include <stdio.h>
#include <string.h>

enum { N = 4 };
static const uint32_t case_a[32] = { 1, 1, 1, 1, 1, 1, 0, 1, /* the array */
                                     1, 2, 2, 1, 1, 0, 1, 0, 0, 0, 1, 1 /* its layer; the rest is 0 */ };
static const float weights[8] = { 2, 1, 0.5f, -1, 1, 2, 0.5f, 3 };
static const float input[N] = { 1, 2, 3, -4 }, condition[N] = { 0, 1, 0, 0 }, head_in[N] = { 1, 0, 0, 0 };
static float histories[7], head_out[N], array_out[N], scratch[16 * N];
static uint32_t positions[5];

/* columns from `from` on, as a block of n; with turns, by a plan */
static uint32_t play(size_t from, size_t n, const uint32_t *plan, size_t turns) {
    if (turns)
        return wavenet_planned(case_a, 32, weights, 8, histories, 7, positions, 5, input + from, n, condition + from, n, head_in + from, n,
                               head_out + from, n, array_out + from, n, scratch, 16 * N, n, plan, 2 * turns);
    return wavenet_block(case_a, 32, weights, 8, histories, 7, positions, 5, input + from, n, condition + from, n, head_in + from, n, head_out + from, n,
                         array_out + from, n, scratch, 16 * N, n);
}

static uint32_t bits(float x) {
    uint32_t b;
    memcpy(&b, &x, sizeof b);
    return b;
}

static void print(const char *how) {
    printf("%s\n", how);
    for (int t = 0; t < N; t++) printf("%d %08x %08x\n", t, bits(head_out[t]), bits(array_out[t]));
}

static int reset(void) { return wavenet_reset(case_a, 32, histories, 7, positions, 5) == 0; }

int main(void) {
    uint32_t sizes[5];
    const uint32_t plan[10] = { 0, 2, 1, 1, 0, 2, 1, 3, 2, 4 }, ahead[4] = { 0, 1, 1, 2 };
    if (wavenet_sizes(case_a, 32, sizes)) return 1;
    printf("case A: %u weights, %u numbers of history, %u positions, W %u, memory depth %u\n", sizes[0], sizes[1], sizes[2], sizes[3], sizes[4]);
    if (!reset() || play(0, N, NULL, 0)) return 1;
    print("a block of four:");
    if (!reset()) return 1;
    for (size_t t = 0; t < N; t++)
        if (play(t, 1, NULL, 0)) return 1;
    print("four columns, one at a time:");
    if (!reset() || play(0, N, plan, 5)) return 1;
    print("by the plan (0,2)(1,1)(0,2)(1,3)(2,4):");
    printf("by the plan (0,1)(1,2), in which the layer gets ahead: refusal %u\n", play(0, N, ahead, 2));
    return 0;
}
