/* The exact order of the functions of each PLA file by libminorder, one after the other in one process.
   usage: small FILE..
   Prints how many milliseconds a file took, its reading left out, and the sum of the fewest nodes. */
#include "functions.h"
#include "minorder.h"

int main(int count, char **paths)
{
    static uint64_t tables[16 << 10];
    double taken = 0;
    unsigned long nodes = 0;
    for (int i = 1; i < count; i++) {
        uint8_t order[16];
        uint32_t levels[16], total;
        read_file(paths[i]);
        size_t words = minorder_words((uint32_t)inputs);
        memset(tables, 0, sizeof tables);
        for (unsigned point = 0; point < 1u << inputs; point++)
            for (int j = 0; j < outputs; j++)
                tables[(size_t)j * words + point / 64] |= (uint64_t)(rows[point] >> j & 1) << point % 64;
        double start = milliseconds();
        if (minorder_exact(tables, words * (size_t)outputs, (uint32_t)inputs, (uint32_t)outputs, order, levels, &total))
            fail("refused");
        taken += milliseconds() - start;
        nodes += total;
    }
    printf("%.6f ms a file, %lu nodes\n", taken / (count - 1), nodes);
    return 0;
}
