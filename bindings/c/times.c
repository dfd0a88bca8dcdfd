/* The times of minorder_exact, minorder_exact_diagram, minorder_diagram, minorder_levels, minorder_sift and minorder_orders for OUTPUTS
   random functions (one if left out) of INPUTS variables, and how many calls of the first one a second takes.
   usage: times INPUTS [OUTPUTS] */
#include <stdio.h>
#include <stdlib.h>
#include <time.h>

#include "minorder.h"

static double milliseconds(void) {
    struct timespec now;
    clock_gettime(CLOCK_MONOTONIC, &now);
    return now.tv_sec * 1e3 + now.tv_nsec / 1e6;
}

/* Puts into `mean` how many milliseconds a call takes: the mean of as many as end within half a second, one at least. */
#define TIME(mean, call)                                             \
    do {                                                             \
        double start = milliseconds(), now;                          \
        int calls = 0;                                               \
        do {                                                         \
            if (call)                                                \
                return 1;                                            \
            calls++;                                                 \
            now = milliseconds();                                    \
        } while (now - start < 500);                                 \
        (mean) = (now - start) / calls;                              \
    } while (0)

static void file_order(uint8_t *order, uint32_t inputs) {
    for (uint32_t i = 0; i < inputs; i++)
        order[i] = (uint8_t)i;
}

int main(int count, char **arguments) {
    uint32_t inputs = count >= 2 ? (uint32_t)atoi(arguments[1]) : 0, outputs = count == 3 ? (uint32_t)atoi(arguments[2]) : 1;
    uint32_t levels[16], best = 0, sifted = 0;
    if (inputs < 1 || inputs > 16 || outputs < 1 || outputs > 16)
        return 2;
    size_t words = outputs * minorder_words(inputs);
    uint64_t *table = malloc(words * sizeof *table), seed = 7;
    for (size_t i = 0; i < words; i++) {
        seed = seed * 6364136223846793005u + 1442695040888963407u;
        table[i] = seed ^ seed >> 29;
    }
    uint8_t order[16];
    uint32_t roots[16];
    double exact, both, drawn, counted, sifting, all;
    minorder_figures figures;
    TIME(exact, minorder_exact(table, words, inputs, outputs, order, levels, &best));
    minorder_node *nodes = malloc((best + 1) * sizeof *nodes);
    size_t found;
    TIME(both, minorder_exact_diagram(table, words, inputs, outputs, order, levels, nodes, best, roots, &best));
    TIME(drawn, minorder_diagram(table, words, inputs, outputs, order, nodes, best, roots, &found));
    TIME(counted, minorder_levels(table, words, inputs, outputs, order, levels));
    TIME(sifting, (file_order(order, inputs), minorder_sift(table, words, inputs, outputs, order, levels, &sifted)));
    TIME(all, minorder_orders(table, words, inputs, outputs, NULL, 0, &figures));
    printf("| %u | %u | %.4g | %.0f | %.4g | %.2g | %.2g | %.4g | %.4g | %u | %u |\n", inputs, outputs, exact, 1e3 / exact, both, drawn,
           counted, sifting, all, best, sifted);
    free(nodes);
    free(table);
    return 0;
}
