/* The fewest nodes of the functions of each PLA file, of at most 10 inputs, by the dynamic program over sets of variables (Friedman and
   Supowit 1990) in its plainest form: the class table of each set from that of the set without its lowest variable, and no bound.
   usage: plain FILE..
   Prints how many milliseconds a file took, its reading left out, and the sum of the fewest nodes. */
#include "functions.h"

enum { MOST = 10, ENTRIES = 16 << MOST, SLOTS = 1 << 16 };

struct table {
    uint16_t numbers[ENTRIES]; /* the class of each entry: for each output the assignments of the variables outside the set */
    uint16_t masks[ENTRIES];   /* the variables that the functions of each class depend on */
    int classes;
};

static struct table tables[MOST + 1]; /* by the size of the set */
static uint32_t least[1 << MOST];     /* the least cost of each set */

/* the numbers of pairs: a slot is of the pair that its stamp is for */
static uint32_t stamps[SLOTS], pairs[SLOTS], stamp;
static uint16_t numbers[SLOTS];

/* Gives a pair its slot: its own where classes are few, else the first from its hash on that is free or has it. */
static unsigned slot_of(unsigned low, unsigned high, unsigned classes)
{
    uint32_t pair = low << 16 | high;
    if (classes * classes <= SLOTS)
        return low * classes + high;
    unsigned slot = pair * 2654435761u >> 16;
    while (stamps[slot] == stamp && pairs[slot] != pair)
        slot = (slot + 1) % SLOTS;
    return slot;
}

/* The table of a set with x, below which the set has no variable, from that of the set without it. */
static void add_lowest(const struct table *from, struct table *to, int entries, int x)
{
    stamp++;
    to->classes = 0;
    for (int j = 0; j < entries / 2; j++) {
        int place = 2 * j - (j & ((1 << x) - 1));
        unsigned low = from->numbers[place], high = from->numbers[place + (1 << x)];
        unsigned slot = slot_of(low, high, (unsigned)from->classes);
        if (stamps[slot] != stamp) {
            stamps[slot] = stamp;
            pairs[slot] = low << 16 | high;
            numbers[slot] = (uint16_t)to->classes;
            to->masks[to->classes++] = (uint16_t)(from->masks[low] | from->masks[high] | (low != high) << x);
        }
        to->numbers[j] = numbers[slot];
    }
}

/* The least sum of the cost without a member and the member's width. */
static uint32_t cost_of(unsigned set, const struct table *table)
{
    uint32_t best = UINT32_MAX;
    for (unsigned rest = set; rest; rest &= rest - 1) {
        int x = __builtin_ctz(rest);
        uint32_t width = 0;
        for (int c = 0; c < table->classes; c++)
            width += table->masks[c] >> x & 1;
        uint32_t cost = least[set & ~(1u << x)] + width;
        if (cost < best) best = cost;
    }
    return best;
}

static uint32_t fewest(void)
{
    int entries = outputs << inputs;
    for (int j = 0; j < outputs; j++)
        for (int point = 0; point < 1 << inputs; point++)
            tables[0].numbers[j << inputs | point] = rows[point] >> j & 1;
    tables[0].classes = 2;
    for (unsigned set = 1; set < 1u << inputs; set++) {
        int size = __builtin_popcount(set);
        add_lowest(&tables[size - 1], &tables[size], entries >> (size - 1), __builtin_ctz(set));
        least[set] = cost_of(set, &tables[size]);
    }
    return least[(1 << inputs) - 1];
}

int main(int count, char **paths)
{
    return time_files(count, paths, MOST, fewest);
}
