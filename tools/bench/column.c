/* One shape of the benchmark, for callgrind: ten layers of 16 (or WIDTH) channels, mode None, by single columns or blocks.
 *   gcc -O2 -Iinclude tools/bench/column.c crates/wavenet/out/libwavenet.a -o target/column
 *   target/column [ACTIVATION] [CALLS] [N] [WIDTH]      activation 0 Tanh, 1 ReLU; N columns a call */
#include "wavenet.h"
#include <stdio.h>
#include <stdlib.h>
#include <time.h>

static double now(void) {
    struct timespec t;
    clock_gettime(CLOCK_MONOTONIC, &t);
    return t.tv_sec * 1e9 + t.tv_nsec;
}

int main(int argc, char **argv) {
    uint32_t activation = argc > 1 ? atoi(argv[1]) : 1, width = argc > 4 ? atoi(argv[4]) : 16;
    uint32_t d[8 + 240] = { 1, 1, width, width, 8, 1, 0, 10 }, sizes[5];
    size_t calls = argc > 2 ? atoi(argv[2]) : 20000, n = argc > 3 ? atoi(argv[3]) : 1;
    for (int l = 0; l < 10; l++) {
        uint32_t *r = d + 8 + 24 * l;
        r[0] = width, r[1] = 3, r[2] = 1u << l, r[3] = r[4] = 1, r[6] = activation, r[10] = r[11] = 1;
    }
    if (wavenet_sizes(d, 248, sizes)) return 1;
    float *weights = calloc(sizes[0], 4), *histories = calloc(sizes[1], 4), *scratch = calloc(16 * sizes[3] * n, 4);
    float *input = calloc(n, 4), *condition = calloc(n, 4), *head_in = calloc(width * n, 4), *head_out = calloc(8 * n, 4), *array_out = calloc(width * n, 4);
    uint32_t *positions = calloc(sizes[2], 4);
    for (uint32_t i = 0; i < sizes[0]; i++) weights[i] = (i * 2654435761u >> 16) % 1000 / 5000.0f - 0.1f;
    wavenet_reset(d, 248, histories, sizes[1], positions, sizes[2]);
    double start = now();
    for (size_t i = 0; i < calls; i++) {
        for (size_t t = 0; t < n; t++) input[t] = i % 17 * 0.1f;
        if (wavenet_block(d, 248, weights, sizes[0], histories, sizes[1], positions, sizes[2], input, n, condition, n, head_in, width * n, head_out, 8 * n,
                          array_out, width * n, scratch, 16 * sizes[3] * n, n)) return 1;
    }
    printf("%.0f ns a column\n", (now() - start) / calls / n);
    return 0;
}
