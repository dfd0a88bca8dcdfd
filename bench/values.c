/* The fewest nodes of the functions of each PLA file, of at most 10 inputs, by the dynamic program over sets of variables (Friedman and
   Supowit 1990) with truth tables in place of class tables, and no bound. The variables of the set are the lowest index bits of the tables,
   so a subfunction over k variables is a field of 2^k bits, and one more variable is one exchange of two index bits.
   usage: values FILE..
   Prints how many milliseconds a file took, its reading left out, and the sum of the fewest nodes. */
#include "functions.h"

enum { MOST = 10, WORDS = 16 << (MOST - 6), SLOTS = 1 << 10 };

static int words;                        /* of all outputs; a table of fewer than 64 points fills its word by repetition */
static uint64_t tables[MOST + 1][WORDS]; /* by the size of the set */
static uint16_t widths[1 << MOST][MOST];
static uint32_t least[1 << MOST]; /* the least cost of each set */

/* the points of a word at which the variable of an index bit is 0 */
static const uint64_t ZERO[6] = {0x5555555555555555, 0x3333333333333333, 0x0f0f0f0f0f0f0f0f,
                                 0x00ff00ff00ff00ff, 0x0000ffff0000ffff, 0x00000000ffffffff};

/* by truth tables: which of the functions of up to three variables depend on each, and the variables that each of four depends on */
static uint64_t dependent[4][3][4];
static uint8_t masks[1 << 16];
static uint64_t lanes[16];     /* for each such mask four counts of 16 bits, 1 for each variable that it has */
static uint64_t seen[1 << 10]; /* the functions of four variables that occurred */

/* longer fields that occurred: those with the present stamp */
static const uint64_t *fields[SLOTS];
static uint32_t stamps[SLOTS], stamp;

static void find_dependent(void)
{
    for (int k = 1; k <= 4; k++)
        for (unsigned f = 0; f < 1u << (1 << k); f++)
            for (int x = 0; x < k; x++) {
                unsigned depends = ((f ^ f >> (1 << x)) & ZERO[x] & ((1u << (1 << k)) - 1)) != 0;
                if (k < 4) dependent[k][x][f / 64] |= (uint64_t)depends << f % 64;
                else masks[f] |= (uint8_t)(depends << x);
            }
    for (int mask = 0; mask < 16; mask++)
        for (int x = 0; x < 4; x++) lanes[mask] |= (uint64_t)(mask >> x & 1) << 16 * x;
}

/* Exchanges the index bits i and j, i < j. Bits below 6 say a point's place in its word, the others which word it is. */
static void exchange(const uint64_t *from, uint64_t *to, int i, int j)
{
    if (j < 6) {
        int shift = (1 << j) - (1 << i);
        for (int w = 0; w < words; w++) {
            uint64_t moved = (from[w] ^ from[w] >> shift) & ZERO[j] & ~ZERO[i];
            to[w] = from[w] ^ moved ^ moved << shift;
        }
    } else if (i < 6) {
        int shift = 1 << i, step = 1 << (j - 6);
        for (int pair = 0; pair < words; pair += 2 * step)
            for (int w = pair; w < pair + step; w++) {
                uint64_t moved = (from[w] >> shift ^ from[w + step]) & ZERO[i];
                to[w] = from[w] ^ moved << shift;
                to[w + step] = from[w + step] ^ moved;
            }
    } else {
        int both = 1 << (i - 6) | 1 << (j - 6);
        for (int w = 0; w < words; w++)
            to[(w & both) == 0 || (w & both) == both ? w : w ^ both] = from[w];
    }
}

/* The widths by index bits, of fields of up to three variables. */
static void count_few(const uint64_t *table, int k, uint16_t *found)
{
    uint64_t occur[4] = {0};
    for (int w = 0; w < words; w++)
        for (int at = 0; at < 64; at += 1 << k) {
            unsigned field = table[w] >> at & ((1u << (1 << k)) - 1);
            occur[field / 64] |= 1ull << field % 64;
        }
    for (int x = 0; x < k; x++) {
        found[x] = 0;
        for (int i = 0; i < 4; i++) found[x] += (uint16_t)__builtin_popcountll(occur[i] & dependent[k][x][i]);
    }
}

/* The widths by index bits, of fields of four variables. */
static void count_four(const uint64_t *table, uint16_t *found)
{
    uint64_t sums = 0;
    for (int w = 0; w < words; w++)
        for (int at = 0; at < 64; at += 16) {
            unsigned field = table[w] >> at & 65535;
            uint64_t bit = 1ull << field % 64;
            if (!(seen[field / 64] & bit)) sums += lanes[masks[field]];
            seen[field / 64] |= bit;
        }
    for (int w = 0; w < words; w++)
        for (int at = 0; at < 64; at += 16) seen[(table[w] >> at & 65535) / 64] = 0;
    for (int x = 0; x < 4; x++) found[x] = sums >> 16 * x & 65535;
}

/* Whether a field of so many words is new; then it has a slot from now on. */
static int is_new(const uint64_t *field, int length)
{
    uint64_t hash = 0;
    for (int w = 0; w < length; w++) hash = (hash ^ field[w]) * 0x9e3779b97f4a7c15;
    unsigned slot = hash >> 54;
    for (; stamps[slot] == stamp; slot = (slot + 1) % SLOTS) {
        int w = 0;
        while (w < length && fields[slot][w] == field[w]) w++;
        if (w == length) return 0;
    }
    stamps[slot] = stamp, fields[slot] = field;
    return 1;
}

/* Whether a field of so many words depends on the variable of an index bit. */
static int depends(const uint64_t *field, int length, int bit)
{
    uint64_t differ = 0;
    if (bit < 6)
        for (int w = 0; w < length; w++) differ |= (field[w] ^ field[w] >> (1 << bit)) & ZERO[bit];
    else
        for (int w = 0; w < length; w++) differ |= field[w] ^ field[w ^ 1 << (bit - 6)];
    return differ != 0;
}

/* The widths by index bits, of fields of five variables and more. A field of 32 bits gets a word of its own, in which it stands twice. */
static void count_long(const uint64_t *table, int k, uint16_t *found)
{
    static uint64_t halves[2 * WORDS];
    int length = k < 6 ? 1 : 1 << (k - 6), all = k < 6 ? 2 * words : words;
    for (int w = 0; k < 6 && w < all; w++) halves[w] = (table[w / 2] >> 32 * (w % 2) & 0xffffffff) * 0x100000001;
    if (k < 6) table = halves;
    stamp++;
    memset(found, 0, sizeof *found * (size_t)k);
    for (const uint64_t *field = table; field < table + all; field += length)
        if (is_new(field, length))
            for (int bit = 0; bit < k; bit++) found[bit] += (uint16_t)depends(field, length, bit);
}

/* Finds the widths into each set that has variables from `from` on besides the `size` of `set`. variables[i] is that of the index bit i. */
static void walk(unsigned set, int size, int from, int *variables)
{
    for (int x = from; x < inputs; x++) {
        uint64_t *table = tables[size + 1];
        uint16_t found[MOST];
        int place = size;
        while (variables[place] != x) place++;
        if (place == size) memcpy(table, tables[size], sizeof *table * (size_t)words);
        else exchange(tables[size], table, size, place);
        variables[place] = variables[size], variables[size] = x;
        if (size < 3) count_few(table, size + 1, found);
        else if (size == 3) count_four(table, found);
        else count_long(table, size + 1, found);
        for (int i = 0; i <= size; i++) widths[set | 1u << x][variables[i]] = found[i];
        walk(set | 1u << x, size + 1, x + 1, variables);
        variables[size] = variables[place], variables[place] = x;
    }
}

static uint32_t fewest(void)
{
    int variables[MOST], points = 1 << inputs, most = points < 64 ? 64 : points;
    words = outputs * most / 64;
    memset(tables[0], 0, sizeof tables[0]);
    for (int j = 0; j < outputs; j++)
        for (int i = 0; i < most; i++) tables[0][(j * most + i) / 64] |= (uint64_t)(rows[i % points] >> j & 1) << i % 64;
    for (int x = 0; x < inputs; x++) variables[x] = x;
    walk(0, 0, 0, variables);
    for (unsigned set = 1; set < 1u << inputs; set++) {
        least[set] = UINT32_MAX;
        for (unsigned rest = set; rest; rest &= rest - 1) {
            int x = __builtin_ctz(rest);
            uint32_t cost = least[set & ~(1u << x)] + widths[set][x];
            if (cost < least[set]) least[set] = cost;
        }
    }
    return least[points - 1];
}

int main(int count, char **paths)
{
    find_dependent();
    return time_files(count, paths, MOST, fewest);
}
