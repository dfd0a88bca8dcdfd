/* Lists the classes of the functions of N variables, 1 to 5, under permutations and negations of the inputs and negation of the output.
   usage: classes N
   A line a class: its least truth table in hexadecimal (bit p is the value at the point p), and how many functions it has. */
#include <stdint.h>
#include <stdio.h>
#include <stdlib.h>

/* the points whose bit i is 1 */
static const uint32_t ones[5] = {0xAAAAAAAA, 0xCCCCCCCC, 0xF0F0F0F0, 0xFF00FF00, 0xFFFF0000};
static int variables;
static uint32_t all;

/* The function with variable i negated. */
static uint32_t negated(uint32_t table, int i)
{
    return (table & ones[i]) >> (1 << i) | (table << (1 << i) & ones[i] & all);
}

/* The function with the variables i < j exchanged. */
static uint32_t exchanged(uint32_t table, int i, int j)
{
    uint32_t up = ones[i] & ~ones[j], step = (1u << j) - (1u << i), down = up << step;
    return (table & ~(up | down)) | (table & up) << step | (table & down) >> step;
}

/* Of a function and its complement the one that is 0 at the last point. */
static uint32_t folded(uint32_t table)
{
    return table >> ((1 << variables) - 1) ? ~table & all : table;
}

static uint8_t *seen; /* a bit for each function that is 0 at the last point */

static uint32_t mark(uint32_t table)
{
    uint32_t it = folded(table);
    uint8_t bit = (uint8_t)(1u << (it & 7)), was = seen[it >> 3];
    seen[it >> 3] = was | bit;
    return !(was & bit);
}

/* Marks the images of a function under all negations of inputs, each differing from the one before in one variable. */
static uint32_t mark_negations(uint32_t table)
{
    uint32_t fresh = 0;
    for (uint32_t step = 1; step <= 1u << variables; step++) {
        fresh += mark(table);
        if (step < 1u << variables)
            table = negated(table, __builtin_ctz(step));
    }
    return fresh;
}

/* Marks a function's images under all permutations of its first `count` inputs, and negations. */
static uint32_t mark_permutations(uint32_t table, int count)
{
    uint32_t fresh = 0;
    if (count < 2)
        return mark_negations(table);
    for (int place = 0; place < count - 1; place++)
        fresh += mark_permutations(exchanged(table, place, count - 1), count - 1);
    return fresh + mark_permutations(table, count - 1);
}

int main(int argc, char **argv)
{
    if (argc != 2 || (variables = atoi(argv[1])) < 1 || variables > 5) {
        fprintf(stderr, "usage: classes N, 1 to 5\n");
        return 2;
    }
    uint32_t points = 1u << variables;
    all = points == 32 ? 0xFFFFFFFF : (1u << points) - 1;
    uint64_t half = (uint64_t)1 << (points - 1);
    if (!(seen = calloc(half / 8 + 1, 1))) {
        fprintf(stderr, "classes: no memory\n");
        return 4;
    }
    for (uint64_t table = 0; table < half; table++) {
        if ((table & 7) == 0 && seen[table >> 3] == 0xFF) {
            table += 7;
            continue;
        }
        if (!(seen[table >> 3] >> (table & 7) & 1))
            printf("%x %u\n", (uint32_t)table, 2 * mark_permutations((uint32_t)table, variables));
    }
    return 0;
}
