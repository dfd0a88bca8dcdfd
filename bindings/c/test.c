/* Calls each function of minorder.h: worked cases, bad arguments of each kind, each allocation refused in turn, several threads
   at once.
   usage: test                  all of these
          test INPUTS OUTPUTS < WORDS    the exact order, its level counts and its size, of tables in hexadecimal words */
#include <inttypes.h>
#include <pthread.h>
#include <stdio.h>
#include <stdlib.h>
#include <string.h>

#include "minorder.h"

static int failures;

#define EXPECT(condition) ((condition) ? (void)0 : (failures++, (void)printf("test.c:%d: %s\n", __LINE__, #condition)))

/* ---- memory that is refused */

static _Thread_local long until_refused = -1, live_blocks;

void *__real_malloc(size_t size);
void *__real_realloc(void *old, size_t size);
void __real_free(void *block);

static int refuses(void) { return until_refused >= 0 && until_refused-- == 0; }

void *__wrap_malloc(size_t size) {
    void *block = refuses() ? NULL : __real_malloc(size);
    live_blocks += block != NULL;
    return block;
}

void *__wrap_realloc(void *old, size_t size) {
    void *block = refuses() ? NULL : __real_realloc(old, size);
    live_blocks += old == NULL && block != NULL;
    return block;
}

void __wrap_free(void *block) {
    live_blocks -= block != NULL;
    __real_free(block);
}

/* ---- functions */

/* x0 x1 + x2 x3 + x4 x5, as in Bryant 1986 with the pairs (0, 3), (1, 4), (2, 5) */
static uint64_t pairs_of_three(void) {
    uint64_t table = 0;
    for (unsigned p = 0; p < 64; p++)
        if ((p & p >> 3 & 7) != 0)
            table |= (uint64_t)1 << p;
    return table;
}

/* the sum bits of two numbers of `bits` bits, a below b */
static void adder(uint64_t *tables, unsigned bits) {
    unsigned inputs = 2 * bits;
    size_t words = minorder_words(inputs);
    memset(tables, 0, words * (bits + 1) * sizeof *tables);
    for (unsigned p = 0; p < 1u << inputs; p++) {
        unsigned sum = (p & ((1u << bits) - 1)) + (p >> bits);
        for (unsigned output = 0; output <= bits; output++)
            if (sum >> output & 1)
                tables[output * words + p / 64] |= (uint64_t)1 << p % 64;
    }
}

static uint32_t sum(const uint32_t *levels, unsigned inputs) {
    uint32_t total = 0;
    for (unsigned i = 0; i < inputs; i++)
        total += levels[i];
    return total;
}

/* ---- worked cases */

static void worked_cases(void) {
    uint64_t table = pairs_of_three();
    uint8_t order[6], file_order[6] = {0, 1, 2, 3, 4, 5};
    uint32_t levels[6], total = 0;
    EXPECT(minorder_exact_with_lengths(&table, 1, 6, 1, order, 6, levels, 6, &total) == MINORDER_DONE);
    EXPECT(total == 6 && sum(levels, 6) == 6);
    EXPECT(memcmp(order, (uint8_t[]){0, 3, 1, 4, 2, 5}, 6) == 0);
    EXPECT(minorder_levels_with_lengths(&table, 1, 6, 1, file_order, 6, levels, 6) == MINORDER_DONE);
    EXPECT(memcmp(levels, (uint32_t[]){1, 2, 4, 4, 2, 1}, sizeof levels) == 0);
    EXPECT(minorder_sift_with_lengths(&table, 1, 6, 1, file_order, 6, levels, 6, &total) == MINORDER_DONE);
    EXPECT(total == sum(levels, 6) && total >= 6 && total <= 14);

    /* the calls that take the lengths from `inputs` */
    EXPECT(minorder_exact(&table, 1, 6, 1, order, levels, &total) == MINORDER_DONE && total == 6 && order[1] == 3);
    EXPECT(minorder_levels(&table, 1, 6, 1, order, levels) == MINORDER_DONE && sum(levels, 6) == 6);
    EXPECT(minorder_sift(&table, 1, 6, 1, order, levels, &total) == MINORDER_DONE && total == 6);
    EXPECT(minorder_exact(&table, 1, 17, 1, order, levels, &total) == MINORDER_BAD_SHAPE);

    /* pairs: the orders with 3 above 0, with 0 to 2 above 3 to 5, and one that no pair changes */
    const minorder_pair turned[] = {{3, 0}}, halves[] = {{0, 3}, {0, 4}, {0, 5}, {1, 3}, {1, 4}, {1, 5}, {2, 3}, {2, 4}, {2, 5}, {0, 3}};
    EXPECT(minorder_exact_above(&table, 1, 6, 1, turned, 1, order, levels, &total) == MINORDER_DONE && total == 6);
    EXPECT(memcmp(order, (uint8_t[]){1, 4, 2, 5, 3, 0}, 6) == 0);
    EXPECT(minorder_exact_above(&table, 1, 6, 1, halves, 10, order, levels, &total) == MINORDER_DONE && total == 14);
    EXPECT(memcmp(order, (uint8_t[]){0, 1, 2, 3, 4, 5}, 6) == 0);
    EXPECT(minorder_exact_above(&table, 1, 6, 1, turned, 0, order, levels, &total) == MINORDER_DONE && total == 6 && order[1] == 3);

    /* bits behind the last point are ignored: x0 and x1 */
    uint64_t and_of_two = 0xdeadbeef00000008;
    uint32_t two[2];
    EXPECT(minorder_exact_with_lengths(&and_of_two, 1, 2, 1, order, 2, two, 2, &total) == MINORDER_DONE);
    EXPECT(total == 2 && order[0] == 0 && order[1] == 1 && two[0] == 1 && two[1] == 1);

    /* the adder of four bits, whose order and verdict the programs print */
    uint64_t sums[5 * 4];
    uint8_t best[8];
    uint32_t counts[8];
    adder(sums, 4);
    EXPECT(minorder_exact_with_lengths(sums, 20, 8, 5, best, 8, counts, 8, &total) == MINORDER_DONE);
    EXPECT(total == 29 && sum(counts, 8) == 29);
    EXPECT(memcmp(best, (uint8_t[]){3, 7, 2, 6, 1, 5, 0, 4}, 8) == 0);
}

/* many problems by one call: the answers are those of a call for each */
static void many_problems(void) {
    enum { COUNT = 40, OUTPUTS = 2 };
    for (uint32_t inputs = 1; inputs <= 8; inputs++) {
        uint64_t tables[COUNT * OUTPUTS * 4], seed = inputs;
        uint8_t orders[COUNT * 8], order[8];
        uint32_t levels[COUNT * 8], totals[COUNT], counts[8], total;
        size_t each = OUTPUTS * minorder_words(inputs), words = COUNT * each;
        for (size_t i = 0; i < words; i++) {
            seed = seed * 6364136223846793005u + 1442695040888963407u;
            tables[i] = seed & seed >> 29;
        }
        EXPECT(minorder_exact_many(tables, words, inputs, OUTPUTS, COUNT, orders, levels, totals) == MINORDER_DONE);
        for (size_t i = 0; i < COUNT; i++) {
            EXPECT(minorder_exact(tables + i * each, each, inputs, OUTPUTS, order, counts, &total) == MINORDER_DONE && total == totals[i]);
            EXPECT(memcmp(order, orders + i * inputs, inputs) == 0 && memcmp(counts, levels + i * inputs, inputs * sizeof *counts) == 0);
        }
        totals[0] = 77;
        EXPECT(minorder_exact_many(tables, words - 1, inputs, OUTPUTS, COUNT, orders, levels, totals) == MINORDER_BAD_SHAPE);
        EXPECT(minorder_exact_many(tables, words, inputs, OUTPUTS, COUNT - 1, orders, levels, totals) == MINORDER_BAD_SHAPE && totals[0] == 77);
        EXPECT(minorder_exact_many(NULL, 0, inputs, OUTPUTS, 0, NULL, NULL, NULL) == MINORDER_DONE);
    }
    EXPECT(minorder_exact_many(NULL, 0, 17, 1, 0, NULL, NULL, NULL) == MINORDER_BAD_SHAPE);
    EXPECT(minorder_exact_many(NULL, 0, 1, 0, 0, NULL, NULL, NULL) == MINORDER_BAD_SHAPE);
    uint64_t table = 2;
    uint8_t order = 0;
    uint32_t level = 0, total = 0;
    EXPECT(minorder_exact_many_with_lengths(&table, 1, 1, 1, &order, 0, &level, 1, &total, 1) == MINORDER_BAD_SHAPE);
    EXPECT(minorder_exact_many_with_lengths(&table, 1, 1, 1, &order, 1, &level, 0, &total, 1) == MINORDER_BAD_SHAPE);
}

/* ---- diagrams */

static uint32_t place_in(const uint8_t *order, uint32_t variable) {
    uint32_t place = 0;
    while (order[place] != variable)
        place++;
    return place;
}

static uint32_t value_at(const minorder_node *nodes, uint32_t ref, uint32_t point) {
    while (ref > 1)
        ref = point >> nodes[ref - 2].variable & 1 ? nodes[ref - 2].high : nodes[ref - 2].low;
    return ref;
}

/* the diagram of random functions under an order: each value, the levels, and what makes it reduced and ordered */
static void random_diagram(uint32_t inputs, uint32_t outputs, const uint8_t *order) {
    static uint64_t tables[16 * 4];
    static minorder_node nodes[2048];
    uint64_t seed = 31 * inputs + outputs;
    size_t each = minorder_words(inputs), count = 0, needed = 0;
    uint32_t roots[16], levels[16], found[16] = {0};
    for (size_t i = 0; i < outputs * each; i++) {
        seed = seed * 6364136223846793005u + 1442695040888963407u;
        tables[i] = seed ^ seed >> 29;
    }
    EXPECT(minorder_levels(tables, outputs * each, inputs, outputs, order, levels) == MINORDER_DONE);
    memset(nodes, 66, sizeof nodes);
    memset(roots, 66, sizeof roots);
    EXPECT(minorder_diagram(tables, outputs * each, inputs, outputs, order, NULL, 0, roots, &needed) == MINORDER_SHORT_TEXT);
    EXPECT(minorder_diagram(tables, outputs * each, inputs, outputs, order, nodes, needed - 1, roots, &count) == MINORDER_SHORT_TEXT);
    EXPECT(count == needed && needed == sum(levels, inputs) && nodes[0].low == 0x42424242 && roots[0] == 0x42424242);
    EXPECT(minorder_diagram(tables, outputs * each, inputs, outputs, order, nodes, sizeof nodes / sizeof *nodes, roots, &count) == MINORDER_DONE);
    EXPECT(count == needed && nodes[count].variable == 0x42424242);
    for (uint32_t i = 0; i < count; i++) {
        uint32_t level = place_in(order, nodes[i].variable);
        found[level]++;
        EXPECT(nodes[i].low != nodes[i].high && nodes[i].low < i + 2 && nodes[i].high < i + 2);
        EXPECT(i == 0 || level <= place_in(order, nodes[i - 1].variable));
        EXPECT(nodes[i].low < 2 || place_in(order, nodes[nodes[i].low - 2].variable) > level);
        EXPECT(nodes[i].high < 2 || place_in(order, nodes[nodes[i].high - 2].variable) > level);
        for (uint32_t j = 0; j < i; j++)
            EXPECT(memcmp(&nodes[i], &nodes[j], sizeof *nodes) != 0);
    }
    EXPECT(memcmp(found, levels, inputs * sizeof *levels) == 0);
    for (uint32_t output = 0; output < outputs; output++)
        for (uint32_t point = 0; point < 1u << inputs; point++)
            EXPECT(value_at(nodes, roots[output], point) == (tables[output * each + point / 64] >> point % 64 & 1));
}

static void diagrams(void) {
    const uint8_t rising[] = {0, 1, 2, 3, 4, 5, 6, 7}, falling[] = {7, 6, 5, 4, 3, 2, 1, 0}, mixed[] = {2, 0, 4, 1, 3};
    for (uint32_t inputs = 1; inputs <= 8; inputs++) {
        random_diagram(inputs, 3, rising);
        random_diagram(inputs, 16, falling + 8 - inputs);
    }
    random_diagram(5, 3, mixed);

    /* x0 x1, and the constants 1 and 0 */
    uint64_t tables[] = {8, 15, 0};
    minorder_node nodes[2];
    uint32_t roots[3];
    size_t count = 77;
    EXPECT(minorder_diagram(tables, 3, 2, 3, rising, nodes, 2, roots, &count) == MINORDER_DONE && count == 2);
    EXPECT(nodes[0].variable == 1 && nodes[0].low == 0 && nodes[0].high == 1);
    EXPECT(nodes[1].variable == 0 && nodes[1].low == 0 && nodes[1].high == 2);
    EXPECT(roots[0] == 3 && roots[1] == 1 && roots[2] == 0);
    EXPECT(minorder_diagram(tables + 1, 2, 2, 2, rising, NULL, 0, roots, &count) == MINORDER_DONE && count == 0);

    /* what is refused otherwise writes nothing */
    count = 77;
    roots[0] = 66;
    EXPECT(minorder_diagram(tables, 3, 2, 3, falling, nodes, 2, roots, &count) == MINORDER_BAD_ORDER);
    EXPECT(minorder_diagram(tables, 3, 2, 3, (const uint8_t[]){0, 0}, NULL, 0, roots, &count) == MINORDER_BAD_ORDER);
    EXPECT(minorder_diagram(tables, 3, 17, 3, rising, nodes, 2, roots, &count) == MINORDER_BAD_SHAPE);
    EXPECT(minorder_diagram(tables, 3, 2, 17, rising, nodes, 2, roots, &count) == MINORDER_BAD_SHAPE);
    EXPECT(minorder_diagram(tables, 2, 2, 3, rising, nodes, 2, roots, &count) == MINORDER_BAD_SHAPE);
    EXPECT(minorder_diagram_with_lengths(tables, 3, 2, 3, rising, 3, nodes, 2, roots, 3, &count) == MINORDER_BAD_SHAPE);
    EXPECT(minorder_diagram_with_lengths(tables, 3, 2, 3, rising, 2, nodes, 2, roots, 2, &count) == MINORDER_BAD_SHAPE);
    EXPECT(count == 77 && roots[0] == 66 && nodes[0].variable == 1);
}

/* the optimum with its diagram: what the two calls write, and only what there is room for */
static void exact_diagrams(void) {
    for (uint32_t inputs = 1; inputs <= 8; inputs++)
        for (uint32_t outputs = 1; outputs <= 16; outputs += 5) {
            uint64_t tables[16 * 4], seed = 17 * inputs + outputs;
            size_t words = outputs * minorder_words(inputs), count = 0;
            static minorder_node nodes[2048], wanted[2048];
            uint32_t levels[8], counts[8], roots[16], wanted_roots[16], total = 0, size = 0;
            uint8_t order[8], best[8];
            for (size_t i = 0; i < words; i++) {
                seed = seed * 6364136223846793005u + 1442695040888963407u;
                tables[i] = seed & seed >> 29;
            }
            memset(nodes, 66, sizeof nodes);
            memset(roots, 66, sizeof roots);
            EXPECT(minorder_exact(tables, words, inputs, outputs, best, counts, &size) == MINORDER_DONE);
            EXPECT(minorder_diagram(tables, words, inputs, outputs, best, wanted, 2048, wanted_roots, &count) == MINORDER_DONE && count == size);
            if (size != 0) {
                EXPECT(minorder_exact_diagram(tables, words, inputs, outputs, order, levels, NULL, 0, roots, &total) == MINORDER_SHORT_TEXT);
                EXPECT(total == size && memcmp(order, best, inputs) == 0 && memcmp(levels, counts, inputs * sizeof *levels) == 0);
                EXPECT(minorder_exact_diagram(tables, words, inputs, outputs, order, levels, nodes, size - 1, roots, &total) == MINORDER_SHORT_TEXT);
            }
            EXPECT(nodes[0].low == 0x42424242 && roots[0] == 0x42424242);
            memset(order, 66, sizeof order);
            memset(levels, 66, sizeof levels);
            EXPECT(minorder_exact_diagram(tables, words, inputs, outputs, order, levels, nodes, size, roots, &total) == MINORDER_DONE);
            EXPECT(total == size && memcmp(order, best, inputs) == 0 && memcmp(levels, counts, inputs * sizeof *levels) == 0);
            EXPECT(memcmp(nodes, wanted, size * sizeof *nodes) == 0 && nodes[size].low == 0x42424242);
            EXPECT(memcmp(roots, wanted_roots, outputs * sizeof *roots) == 0);
            size_t no_words = words - 1;
            order[0] = 77;
            EXPECT(minorder_exact_diagram(tables, no_words, inputs, outputs, order, levels, nodes, 2048, roots, &total) == MINORDER_BAD_SHAPE);
            EXPECT(minorder_exact_diagram(tables, words, inputs, 17, order, levels, nodes, 2048, roots, &total) == MINORDER_BAD_SHAPE);
            EXPECT(minorder_exact_diagram(tables, words, 17, outputs, order, levels, nodes, 2048, roots, &total) == MINORDER_BAD_SHAPE);
            EXPECT(minorder_exact_diagram_with_lengths(tables, words, inputs, outputs, order, inputs, levels, inputs + 1, nodes, 2048, roots, outputs, &total) == MINORDER_BAD_SHAPE);
            EXPECT(order[0] == 77 && total == size);
        }

    /* x0 x3 + x1 x4 + x2 x5 and its complement, from Bryant 1986: a chain of six nodes, one root the other with the terminals exchanged */
    uint64_t tables[2] = {0, 0};
    for (unsigned p = 0; p < 64; p++)
        tables[(p & p >> 3 & 7) == 0] |= (uint64_t)1 << p;
    minorder_node nodes[12];
    uint32_t levels[6], roots[2], total = 0;
    uint8_t order[6];
    EXPECT(minorder_exact_diagram(tables, 2, 6, 2, order, levels, nodes, 12, roots, &total) == MINORDER_DONE && total == 12);
    EXPECT(memcmp(order, (uint8_t[]){0, 3, 1, 4, 2, 5}, 6) == 0 && sum(levels, 6) == 12);
    EXPECT(nodes[0].variable == 5 && nodes[1].variable == 5 && nodes[0].low + nodes[0].high == 1 && nodes[1].low == nodes[0].high);
    EXPECT(value_at(nodes, roots[0], 9) == 1 && value_at(nodes, roots[1], 9) == 0 && value_at(nodes, roots[0], 10) == 0);
}

/* many problems by one call: the answers are those of a call for each, one behind the other */
static void many_diagrams(void) {
    enum { COUNT = 30, OUTPUTS = 2 };
    static minorder_node nodes[COUNT * 256], own[256];
    for (uint32_t inputs = 1; inputs <= 7; inputs++) {
        uint64_t tables[COUNT * OUTPUTS * 2], seed = inputs + 5;
        uint8_t orders[COUNT * 7], order[7];
        uint32_t levels[COUNT * 7], totals[COUNT], counts[7], roots[COUNT * OUTPUTS], own_roots[OUTPUTS], total;
        size_t each = OUTPUTS * minorder_words(inputs), words = COUNT * each, needed = 0, at = 0;
        for (size_t i = 0; i < words; i++) {
            seed = seed * 6364136223846793005u + 1442695040888963407u;
            tables[i] = seed & seed >> 29;
        }
        memset(nodes, 66, sizeof nodes);
        roots[0] = 77;
        EXPECT(minorder_exact_diagram_many(tables, words, inputs, OUTPUTS, COUNT, orders, levels, NULL, 0, roots, totals) == MINORDER_SHORT_TEXT);
        for (size_t i = 0; i < COUNT; i++)
            needed += totals[i];
        EXPECT(minorder_exact_diagram_many(tables, words, inputs, OUTPUTS, COUNT, orders, levels, nodes, needed - 1, roots, totals) == MINORDER_SHORT_TEXT);
        EXPECT(nodes[0].low == 0x42424242 && roots[0] == 77);
        EXPECT(minorder_exact_diagram_many(tables, words, inputs, OUTPUTS, COUNT, orders, levels, nodes, needed, roots, totals) == MINORDER_DONE);
        for (size_t i = 0; i < COUNT; at += totals[i++]) {
            EXPECT(minorder_exact_diagram(tables + i * each, each, inputs, OUTPUTS, order, counts, own, 256, own_roots, &total) == MINORDER_DONE);
            EXPECT(total == totals[i] && memcmp(order, orders + i * inputs, inputs) == 0 && memcmp(counts, levels + i * inputs, inputs * sizeof *counts) == 0);
            EXPECT(memcmp(own, nodes + at, total * sizeof *own) == 0 && memcmp(own_roots, roots + i * OUTPUTS, sizeof own_roots) == 0);
        }
        EXPECT(at == needed && nodes[needed].low == 0x42424242);
        totals[0] = 77;
        EXPECT(minorder_exact_diagram_many(tables, words - 1, inputs, OUTPUTS, COUNT, orders, levels, nodes, needed, roots, totals) == MINORDER_BAD_SHAPE);
        EXPECT(minorder_exact_diagram_many_with_lengths(tables, words, inputs, OUTPUTS, totals, COUNT, orders, COUNT * inputs, levels, COUNT * inputs,
                                                        nodes, needed, roots, COUNT) == MINORDER_BAD_SHAPE);
        EXPECT(totals[0] == 77 && minorder_exact_diagram_many(NULL, 0, inputs, OUTPUTS, 0, NULL, NULL, NULL, 0, NULL, NULL) == MINORDER_DONE);
    }
}

static const char good[] = "bddorder-certificate 1\ninputs 1\noutputs 1\norder 0\nlevels 1\ntotal 1\ncells 1\n0000 0\nend\n";

static uint32_t checked(const char *text, minorder_verdict *verdict) {
    uint64_t itself = 2;
    return minorder_check(&itself, 1, 1, 1, (const uint8_t *)text, strlen(text), verdict);
}

static void certificates(void) {
    minorder_verdict verdict = {99, 99, 99};
    EXPECT(checked("certificate", &verdict) == MINORDER_BAD_CERTIFICATE && verdict.reason == 99);
    EXPECT(checked("", &verdict) == MINORDER_BAD_CERTIFICATE && verdict.reason == 99);
    EXPECT(checked(good, &verdict) == MINORDER_DONE);
    EXPECT(verdict.reason == MINORDER_VALID && verdict.mask == 0 && verdict.variable == 0);
    EXPECT(checked("bddorder-certificate 1\ninputs 1\noutputs 1\norder 0\nlevels 0\ntotal 0\ncells 1\n0000 0\nend\n", &verdict) == MINORDER_DONE);
    EXPECT(verdict.reason == MINORDER_LEVELS);
    EXPECT(checked("bddorder-certificate 1\ninputs 1\noutputs 2\norder 0\nlevels 1\ntotal 1\ncells 1\n0000 0\nend\n", &verdict) == MINORDER_DONE);
    EXPECT(verdict.reason == MINORDER_SHAPE);
    EXPECT(checked("bddorder-certificate 1\ninputs 1\noutputs 1\norder 0\nlevels 1\ntotal 1\ncells 0\nend\n", &verdict) == MINORDER_DONE);
    EXPECT(verdict.reason == MINORDER_START);
}

/* what a certificate with the pair (3, 0), or with none, states */
static void totals_and_pairs(const uint64_t *table, const char *text, size_t length, size_t pairs) {
    for (size_t room = 0; room < 3; room++) {
        minorder_pair found[2] = {{66, 66}, {66, 66}};
        minorder_verdict verdict = {99, 99, 99};
        uint32_t total = 0;
        size_t count = 99;
        EXPECT(minorder_check_total(table, 1, 6, 1, (const uint8_t *)text, length, &verdict, &total, room == 0 ? NULL : found, room, &count) == MINORDER_DONE);
        EXPECT(verdict.reason == MINORDER_VALID && total == 6 && count == pairs);
        int told = pairs != 0 && room != 0;
        EXPECT(found[0].above == (told ? 3 : 66) && found[0].below == (told ? 0 : 66) && found[1].above == 66);
        EXPECT(minorder_check_total(table, 1, 6, 1, (const uint8_t *)text, length - 1, &verdict, &total, found, room, &count) == MINORDER_BAD_CERTIFICATE);
        EXPECT(minorder_check_total(table, 2, 6, 1, (const uint8_t *)text, length, &verdict, &total, found, room, &count) == MINORDER_BAD_SHAPE);
        EXPECT(verdict.reason == MINORDER_VALID && total == 6 && count == pairs);
    }
}

/* a certificate is written as far as there is room, is judged to be valid, and keeps its pairs */
static void written_certificates(void) {
    uint64_t table = pairs_of_three();
    const minorder_pair turned[] = {{3, 0}};
    char text[4096];
    size_t length = 0, needed = 0;
    minorder_verdict verdict;
    for (size_t count = 0; count < 2; count++) {
        EXPECT(minorder_certify(&table, 1, 6, 1, turned, count, NULL, 0, &needed) == MINORDER_SHORT_TEXT);
        EXPECT(0 < needed && needed < sizeof text);
        memset(text, '?', sizeof text);
        EXPECT(minorder_certify(&table, 1, 6, 1, turned, count, text, needed - 1, &length) == MINORDER_SHORT_TEXT);
        EXPECT(length == needed && text[0] == '?');
        EXPECT(minorder_certify(&table, 1, 6, 1, turned, count, text, needed, &length) == MINORDER_DONE);
        EXPECT(length == needed && text[length] == '?' && memcmp(text, "bddorder-certificate 2\n", 23) == 0);
        EXPECT(minorder_check(&table, 1, 6, 1, (const uint8_t *)text, length, &verdict) == MINORDER_DONE);
        EXPECT(verdict.reason == MINORDER_VALID && strcmp(minorder_reason_text(verdict.reason), "Valid") == 0);
        totals_and_pairs(&table, text, length, count);
    }
    EXPECT(minorder_certify(&table, 1, 6, 1, NULL, 0, text, sizeof text, &length) == MINORDER_DONE && length < sizeof text);
    const minorder_pair circle[] = {{1, 2}, {2, 1}};
    length = 77;
    EXPECT(minorder_certify(&table, 1, 6, 1, circle, 2, text, sizeof text, &length) == MINORDER_BAD_PAIRS && length == 77);
    EXPECT(minorder_certify(&table, 1, 17, 1, NULL, 0, text, sizeof text, &length) == MINORDER_BAD_SHAPE && length == 77);
    EXPECT(strcmp(minorder_status_text(MINORDER_SHORT_TEXT), "there is more to write than there is room for") == 0);
    EXPECT(strcmp(minorder_status_text(6), "no status of this library") == 0);
}

/* ---- PLA files */

static uint32_t read_text(const char *text, minorder_pla *pla, uint64_t *tables, size_t room, minorder_fault *fault) {
    return minorder_read_pla(text, strlen(text), pla, tables, room, fault);
}

/* whether a name is the one that this part of the text begins with */
static int is_name(const char *text, minorder_name name, const char *wanted, const char *part) {
    return name.length == strlen(wanted) && memcmp(text + name.start, wanted, name.length) == 0 && text + name.start == strstr(text, part);
}

static int is_fault(const char *text, size_t line, const char *kind) {
    minorder_pla pla = {77, 77, {{0, 0}}, {{0, 0}}};
    minorder_fault fault = {99, 99};
    uint64_t table = 55;
    uint32_t status = read_text(text, &pla, &table, 1, &fault);
    return status == MINORDER_BAD_PLA && fault.line == line && strcmp(minorder_fault_text(fault.kind), kind) == 0 && pla.inputs == 77 && table == 55;
}

static void pla_files(void) {
    const char *named = "# a file\n.i 2\r\n.o 2\n.ob sum\tcarry # the outputs\n.ilb  a b\n11 01\n01|1~\n10 1 0\n.e\n.i 3\n";
    minorder_pla pla;
    minorder_fault fault = {99, 99};
    uint64_t tables[3] = {55, 55, 55};
    memset(&pla, 66, sizeof pla);
    EXPECT(read_text(named, &pla, tables, 3, &fault) == MINORDER_DONE);
    EXPECT(pla.inputs == 2 && pla.outputs == 2 && tables[0] == 6 && tables[1] == 8 && tables[2] == 55);
    EXPECT(is_name(named, pla.input_names[0], "a", "a b\n") && is_name(named, pla.input_names[1], "b", "b\n"));
    EXPECT(is_name(named, pla.output_names[0], "sum", "sum") && is_name(named, pla.output_names[1], "carry", "carry"));
    for (int i = 2; i < 16; i++)
        EXPECT(pla.input_names[i].start == 0 && pla.input_names[i].length == 0 && pla.output_names[i].length == 0);

    /* less room than is needed: all but the tables */
    memset(&pla, 66, sizeof pla);
    tables[0] = 55;
    EXPECT(read_text(named, &pla, tables, 1, &fault) == MINORDER_SHORT_TEXT && tables[0] == 55);
    EXPECT(pla.inputs == 2 && pla.outputs == 2 && is_name(named, pla.output_names[1], "carry", "carry"));
    EXPECT(read_text(named, &pla, NULL, 0, &fault) == MINORDER_SHORT_TEXT && fault.line == 99);

    /* a name at the text's end */
    const char *cut = "# f g\n.i 1\n.o 2\n.ob f g";
    EXPECT(read_text(cut, &pla, tables, 2, &fault) == MINORDER_DONE);
    EXPECT(pla.output_names[0].start == strlen(cut) - 3 && pla.output_names[0].length == 1);
    EXPECT(pla.output_names[1].start == strlen(cut) - 1 && pla.output_names[1].length == 1);

    /* no names */
    EXPECT(read_text(".i 1\n.o 1\n", &pla, tables, 1, &fault) == MINORDER_DONE && tables[0] == 0);
    EXPECT(pla.input_names[0].length == 0 && pla.output_names[0].length == 0);

    EXPECT(minorder_read_pla(NULL, 0, &pla, tables, 1, &fault) == MINORDER_BAD_PLA && fault.line == 0 && fault.kind == 1);
    EXPECT(is_fault(".i 1\n11\n", 2, "MissingHead") && is_fault(".i 1\n.i 1\n", 2, "RepeatedHead"));
    EXPECT(is_fault(".i 17\n", 1, "InputCount") && is_fault("\n.o 0\n", 2, "OutputCount") && is_fault(".i a\n", 1, "BadNumber"));
    EXPECT(is_fault(".i 1\n.ilb a b\n", 2, "NameCount") && is_fault(".i 1\n.ilb \177\n", 2, "BadName"));
    EXPECT(is_fault(".x\n", 1, "UnknownDirective") && is_fault(".type fr\n", 1, "UnsupportedType"));
    EXPECT(is_fault(".i 1\n.o 1\n1-\n", 3, "DontCare") && is_fault(".i 1\n.o 1\nx1\n", 3, "BadInputChar"));
    EXPECT(is_fault(".i 1\n.o 1\n1x\n", 3, "BadOutputChar") && is_fault(".i 1\n.o 1\n1\n", 3, "ShortTerm"));
    EXPECT(is_fault(".i 1\n.o 1\n111\n", 3, "LongTerm"));
    enum { LIMIT = 16777216 };
    char *long_text = malloc(LIMIT + 1);
    memset(long_text, '\n', LIMIT + 1);
    memcpy(long_text, ".i 1\n.o 1\n", 10);
    EXPECT(minorder_read_pla(long_text, LIMIT, &pla, tables, 1, &fault) == MINORDER_DONE);
    EXPECT(minorder_read_pla(long_text, LIMIT + 1, &pla, tables, 1, &fault) == MINORDER_BAD_PLA);
    EXPECT(fault.line == 0 && strcmp(minorder_fault_text(fault.kind), "TooLong") == 0);
    free(long_text);

    minorder_name names[16], other_names[16];
    uint32_t inputs = 77, outputs = 77;
    EXPECT(minorder_read_pla_with_lengths((const uint8_t *)named, 1, &inputs, &outputs, names, 15, other_names, 16, tables, 1, &fault) == MINORDER_BAD_SHAPE);
    EXPECT(inputs == 77 && outputs == 77);
    EXPECT(strcmp(minorder_fault_text(0), "no fault of this library") == 0 && strcmp(minorder_fault_text(16), "no fault of this library") == 0);
    EXPECT(strcmp(minorder_status_text(MINORDER_BAD_PLA), "the text is no PLA file") == 0);
}

/* the library that is called is of the header's version */
static void versions(void) {
    uint32_t number = minorder_version();
    char text[32];
    snprintf(text, sizeof text, "%u.%u.%u", number / 10000, number / 100 % 100, number % 100);
    EXPECT(strcmp(text, MINORDER_VERSION) == 0);
}

/* ---- no pairs, by a null pointer */

static void no_pairs(void) {
    uint64_t table = 0;
    for (unsigned p = 0; p < 64; p++)
        if (p & (p >> 3) & 7)
            table |= (uint64_t)1 << p;
    uint8_t plain[6], order[6];
    uint32_t plain_levels[6], levels[6], fewest, total;
    EXPECT(minorder_exact(&table, 1, 6, 1, plain, plain_levels, &fewest) == MINORDER_DONE);
    EXPECT(minorder_exact_above(&table, 1, 6, 1, NULL, 0, order, levels, &total) == MINORDER_DONE);
    EXPECT(total == fewest && memcmp(order, plain, sizeof order) == 0 && memcmp(levels, plain_levels, sizeof levels) == 0);
}

/* ---- one size for all functions of an NPN class */

static uint64_t moved(uint64_t table, uint32_t x, uint32_t y, uint32_t flipped) {
    uint64_t made = 0;
    for (uint32_t p = 0; p < 16; p++) {
        uint32_t differs = (p >> x ^ p >> y) & 1, q = p ^ (differs << x | differs << y) ^ flipped;
        made |= (table >> q & 1) << p;
    }
    return made;
}

static void npn_classes(void) {
    uint64_t seed = 5;
    for (int round = 0; round < 200; round++) {
        seed = seed * 6364136223846793005u + 1442695040888963407u;
        uint64_t table = seed >> 40 & 0xffff;
        uint8_t order[4];
        uint32_t levels[4], size, other, x = (uint32_t)round & 3, y = (uint32_t)round >> 2 & 3, flipped = (uint32_t)round >> 4 & 15;
        EXPECT(minorder_exact(&table, 1, 4, 1, order, levels, &size) == MINORDER_DONE);
        uint64_t same = moved(table, x, y, flipped) ^ (round & 1 ? 0xffff : 0);
        EXPECT(minorder_exact(&same, 1, 4, 1, order, levels, &other) == MINORDER_DONE && other == size);
    }
}

/* ---- all orders, against a walk over each of them */

struct walk {
    const uint64_t *tables;
    const uint32_t *widths;
    const minorder_pair *pair;
    uint32_t inputs;
    size_t words;
    uint8_t order[5];
    minorder_figures found;
    uint64_t of_size[64];
};

static void take_order(struct walk *walk) {
    uint32_t levels[5], size = 0, mask = 0, below = 0;
    EXPECT(minorder_levels(walk->tables, walk->words, walk->inputs, 2, walk->order, levels) == MINORDER_DONE);
    for (uint32_t i = walk->inputs; i-- > 0;) {
        size += levels[i];
        mask |= 1u << walk->order[i];
        below += walk->widths[mask * walk->inputs + walk->order[i]];
    }
    EXPECT(size == below);
    if (walk->pair != NULL && place_in(walk->order, walk->pair->above) > place_in(walk->order, walk->pair->below))
        return;
    minorder_figures *found = &walk->found;
    if (found->orders++ == 0 || size < found->fewest_nodes)
        found->fewest_nodes = size, found->optimal_orders = 0;
    if (found->orders == 1 || size > found->most_nodes)
        found->most_nodes = size, found->worst_orders = 0;
    found->optimal_orders += size == found->fewest_nodes;
    found->worst_orders += size == found->most_nodes;
    found->total_nodes += size;
    walk->of_size[size]++;
}

static void take_orders(struct walk *walk, uint32_t chosen, uint32_t mask) {
    if (chosen == walk->inputs)
        take_order(walk);
    for (uint32_t x = 0; chosen < walk->inputs && x < walk->inputs; x++)
        if ((mask >> x & 1) == 0) {
            walk->order[chosen] = (uint8_t)x;
            take_orders(walk, chosen + 1, mask | 1u << x);
        }
}

/* the sizes up to `most` nodes, with room for all, for one less and for none */
static void sizes_up_to(const struct walk *walk, uint32_t most) {
    uint64_t orders[64] = {0}, counted = 0, expected = 0;
    uint32_t fewest = 77;
    size_t sizes = 77, pairs = walk->pair != NULL;
    EXPECT(minorder_sizes(walk->tables, walk->words, walk->inputs, 2, walk->pair, pairs, most, orders, 64, &fewest, &sizes) == MINORDER_DONE);
    for (uint32_t size = 0; size < 64; size++) {
        EXPECT((size >= fewest && size - fewest < sizes ? orders[size - fewest] : 0) == (size <= most ? walk->of_size[size] : 0));
        expected += size <= most ? walk->of_size[size] : 0;
    }
    for (size_t i = 0; i < 64; i++)
        counted += orders[i];
    EXPECT(counted == expected && (sizes == 0 ? fewest == 0 : orders[0] != 0 && orders[sizes - 1] != 0));
    for (size_t room = 0; room < 2 && room < sizes; room++) {
        uint64_t kept = 99;
        uint32_t again = 77;
        size_t wanted = 77;
        EXPECT(minorder_sizes(walk->tables, walk->words, walk->inputs, 2, walk->pair, pairs, most, &kept, room, &again, &wanted)
               == (room < sizes ? MINORDER_SHORT_TEXT : MINORDER_DONE));
        EXPECT(again == fewest && wanted == sizes && kept == 99);
    }
}

static void all_orders(void) {
    uint64_t seed = 11;
    const minorder_pair last_above = {1, 0}, itself = {0, 0};
    for (uint32_t inputs = 1; inputs <= 5; inputs++)
        for (int round = 0; round < 24; round++) {
            uint64_t tables[2];
            uint32_t widths[160];
            size_t count = inputs > 1 && round % 2 == 1 ? 1 : 0;
            for (int i = 0; i < 2; i++) {
                seed = seed * 6364136223846793005u + 1442695040888963407u;
                tables[i] = round < 2 ? 0 : round < 16 ? seed & seed >> 29 : seed >> 11 & 0x8080808080808080u;
            }
            EXPECT(minorder_widths(tables, 2, inputs, 2, widths) == MINORDER_DONE);
            for (uint32_t place = 0; place < inputs << inputs; place++)
                EXPECT(place / inputs >> place % inputs & 1 || widths[place] == 0);
            struct walk walk = {tables, widths, count == 1 ? &last_above : NULL, inputs, 2, {0}, {0, 0, 0, 0, 0, 0}, {0}};
            take_orders(&walk, 0, 0);
            minorder_figures figures;
            EXPECT(minorder_orders(tables, 2, inputs, 2, count == 1 ? &last_above : NULL, count, &figures) == MINORDER_DONE);
            EXPECT(figures.orders == walk.found.orders && figures.total_nodes == walk.found.total_nodes);
            EXPECT(figures.fewest_nodes == walk.found.fewest_nodes && figures.optimal_orders == walk.found.optimal_orders);
            EXPECT(figures.most_nodes == walk.found.most_nodes && figures.worst_orders == walk.found.worst_orders);
            sizes_up_to(&walk, UINT32_MAX);
            sizes_up_to(&walk, figures.most_nodes);
            sizes_up_to(&walk, figures.fewest_nodes);
            sizes_up_to(&walk, (figures.fewest_nodes + figures.most_nodes) / 2);
            sizes_up_to(&walk, figures.fewest_nodes == 0 ? 0 : figures.fewest_nodes - 1);
        }
    uint64_t none[1024] = {0};
    minorder_figures figures;
    EXPECT(minorder_orders(none, 1024, 16, 1, NULL, 0, &figures) == MINORDER_DONE);
    EXPECT(figures.orders == 20922789888000u && figures.optimal_orders == figures.orders && figures.worst_orders == figures.orders);
    EXPECT(figures.fewest_nodes == 0 && figures.most_nodes == 0 && figures.total_nodes == 0);
    uint64_t sized[2] = {7, 7};
    uint32_t fewest = 77;
    size_t sizes = 77;
    EXPECT(minorder_sizes(none, 1, 6, 1, &itself, 1, 9, sized, 2, &fewest, &sizes) == MINORDER_BAD_PAIRS);
    EXPECT(minorder_sizes(none, 1, 17, 1, NULL, 0, 9, sized, 2, &fewest, &sizes) == MINORDER_BAD_SHAPE && fewest == 77 && sizes == 77);
    EXPECT(minorder_sizes(none, 1024, 16, 1, NULL, 0, 0, sized, 2, &fewest, &sizes) == MINORDER_DONE && fewest == 0 && sizes == 1);
    EXPECT(sized[0] == 20922789888000u && sized[1] == 7);
    uint32_t widths[2] = {7, 7};
    figures.orders = 77;
    EXPECT(minorder_orders(none, 2, 6, 1, NULL, 0, &figures) == MINORDER_BAD_SHAPE && minorder_orders(none, 1, 17, 1, NULL, 0, &figures) == MINORDER_BAD_SHAPE);
    EXPECT(minorder_orders(none, 1, 6, 1, &itself, 1, &figures) == MINORDER_BAD_PAIRS && figures.orders == 77);
    EXPECT(minorder_widths(none, 1, 17, 1, widths) == MINORDER_BAD_SHAPE && minorder_widths(none, 0, 1, 1, widths) == MINORDER_BAD_SHAPE);
    EXPECT(minorder_widths_with_lengths(none, 1, 1, 1, widths, 1) == MINORDER_BAD_SHAPE && widths[0] == 7 && widths[1] == 7);
}

/* ---- bad arguments, which write nothing */

static void bad_arguments(void) {
    uint64_t table[2048] = {0};
    uint8_t order[17], twice[6] = {0, 1, 2, 2, 4, 5}, outside[6] = {0, 1, 2, 3, 4, 6};
    uint32_t levels[17], total = 77;
    minorder_verdict verdict = {99, 99, 99};
    const minorder_pair pairs[] = {{0, 1}};
    memset(order, 66, sizeof order);
    memset(levels, 55, sizeof levels);
    const struct { size_t words; uint32_t inputs, outputs; size_t places, counts; } bad[] = {
        {1, 0, 1, 0, 0}, {1, 17, 1, 17, 17}, {2048, 17, 1, 17, 17}, {1, 6, 0, 6, 6}, {17, 6, 17, 6, 6},
        {0, 6, 1, 6, 6}, {2, 6, 1, 6, 6}, {1, 6, 2, 6, 6}, {1, 6, 1, 5, 6}, {1, 6, 1, 6, 7},
    };
    for (size_t i = 0; i < sizeof bad / sizeof *bad; i++) {
        EXPECT(minorder_exact_with_lengths(table, bad[i].words, bad[i].inputs, bad[i].outputs, order, bad[i].places, levels, bad[i].counts, &total) == MINORDER_BAD_SHAPE);
        EXPECT(minorder_exact_above_with_lengths(table, bad[i].words, bad[i].inputs, bad[i].outputs, pairs, 0, order, bad[i].places, levels, bad[i].counts, &total) == MINORDER_BAD_SHAPE);
        EXPECT(minorder_sift_with_lengths(table, bad[i].words, bad[i].inputs, bad[i].outputs, order, bad[i].places, levels, bad[i].counts, &total) == MINORDER_BAD_SHAPE);
        EXPECT(minorder_levels_with_lengths(table, bad[i].words, bad[i].inputs, bad[i].outputs, order, bad[i].places, levels, bad[i].counts) == MINORDER_BAD_SHAPE);
        if (bad[i].places == bad[i].inputs && bad[i].counts == bad[i].inputs)
            EXPECT(minorder_check(table, bad[i].words, bad[i].inputs, bad[i].outputs, (const uint8_t *)good, strlen(good), &verdict) == MINORDER_BAD_SHAPE);
    }
    EXPECT(minorder_levels_with_lengths(table, 1, 6, 1, twice, 6, levels, 6) == MINORDER_BAD_ORDER);
    EXPECT(minorder_levels_with_lengths(table, 1, 6, 1, outside, 6, levels, 6) == MINORDER_BAD_ORDER);
    EXPECT(minorder_sift_with_lengths(table, 1, 6, 1, twice, 6, levels, 6, &total) == MINORDER_BAD_ORDER);
    EXPECT(minorder_sift_with_lengths(table, 1, 6, 1, outside, 6, levels, 6, &total) == MINORDER_BAD_ORDER);
    const minorder_pair out[] = {{0, 6}}, circle[] = {{1, 2}, {2, 5}, {5, 1}}, itself[] = {{16, 16}};
    EXPECT(minorder_exact_above_with_lengths(table, 1, 6, 1, out, 1, order, 6, levels, 6, &total) == MINORDER_BAD_PAIRS);
    EXPECT(minorder_exact_above_with_lengths(table, 1, 6, 1, circle, 3, order, 6, levels, 6, &total) == MINORDER_BAD_PAIRS);
    EXPECT(minorder_exact_above_with_lengths(table, 1, 6, 1, itself, 1, order, 6, levels, 6, &total) == MINORDER_BAD_PAIRS);
    EXPECT(minorder_words(0) == 1 && minorder_words(6) == 1 && minorder_words(16) == 1024);
    EXPECT(minorder_words(17) == 0 && minorder_words(70) == 0 && minorder_words(UINT32_MAX) == 0);
    EXPECT(minorder_exact_above(table, minorder_words(70), 70, 1, NULL, 0, order, levels, &total) == MINORDER_BAD_SHAPE);
    EXPECT(total == 77 && verdict.reason == 99 && twice[3] == 2 && outside[5] == 6);
    for (int i = 0; i < 17; i++)
        EXPECT(order[i] == 66 && levels[i] == 0x37373737);
}

/* ---- each allocation refused in turn: status 4, nothing written, nothing kept */

static uint64_t refused_tables[3];
static uint8_t given_order[4], answered_order[4];
static uint32_t answered_levels[4], answered_total;
static minorder_verdict answered_verdict;
static uint8_t many_orders[12];
static uint32_t many_levels[12], many_totals[3];

static uint32_t exact_call(void) { return minorder_exact_with_lengths(refused_tables, 3, 4, 3, answered_order, 4, answered_levels, 4, &answered_total); }
static uint32_t above_call(void) {
    static const minorder_pair pairs[] = {{1, 0}, {3, 1}};
    return minorder_exact_above(refused_tables, 3, 4, 3, pairs, 2, answered_order, answered_levels, &answered_total);
}
static uint32_t levels_call(void) { return minorder_levels_with_lengths(refused_tables, 3, 4, 3, given_order, 4, answered_levels, 4); }
static uint32_t diagram_call(void) {
    minorder_node nodes[32];
    size_t count;
    uint32_t roots[3] = {0};
    uint32_t status = minorder_diagram(refused_tables, 3, 4, 3, given_order, nodes, 32, roots, &count);
    EXPECT((status == MINORDER_DONE) == (roots[0] != 0));
    return status;
}
static uint32_t exact_diagram_call(void) {
    minorder_node nodes[32];
    uint32_t roots[3] = {0};
    uint32_t status = minorder_exact_diagram(refused_tables, 3, 4, 3, answered_order, answered_levels, nodes, 32, roots, &answered_total);
    EXPECT((status == MINORDER_DONE) == (roots[0] != 0));
    return status;
}
static uint32_t sift_call(void) { return minorder_sift_with_lengths(refused_tables, 3, 4, 3, answered_order, 4, answered_levels, 4, &answered_total); }
static uint32_t orders_call(void) {
    minorder_figures figures = {0, 0, 0, 0, 0, 0};
    uint32_t status = minorder_orders(refused_tables, 3, 4, 3, NULL, 0, &figures);
    EXPECT((status == MINORDER_DONE) == (figures.orders == 24));
    return status;
}
/* the widths of more than 10 inputs are found in another way */
static uint32_t large_orders_call(void) {
    static const uint64_t table[32] = {0x8000, 0x9669, 7};
    minorder_figures figures = {0, 0, 0, 0, 0, 0};
    uint32_t status = minorder_orders(table, 32, 11, 1, NULL, 0, &figures);
    EXPECT((status == MINORDER_DONE) == (figures.orders == 39916800));
    return status;
}
static uint32_t sizes_call(void) {
    uint64_t orders[32], all = 0;
    uint32_t fewest;
    size_t sizes = 0;
    uint32_t status = minorder_sizes(refused_tables, 3, 4, 3, NULL, 0, UINT32_MAX, orders, 32, &fewest, &sizes);
    for (size_t i = 0; i < sizes; i++)
        all += orders[i];
    EXPECT(all == (status == MINORDER_DONE ? 24 : 0));
    return status;
}
static uint32_t widths_call(void) {
    uint32_t widths[64] = {0};
    uint32_t status = minorder_widths(refused_tables, 3, 4, 3, widths);
    EXPECT((status == MINORDER_DONE) == (widths[4] != 0));
    return status;
}
static uint32_t check_call(void) { return checked(good, &answered_verdict); }
static uint32_t many_call(void) { return minorder_exact_many(refused_tables, 3, 4, 1, 3, many_orders, many_levels, many_totals); }
static uint32_t many_diagrams_call(void) {
    minorder_node nodes[32];
    uint32_t roots[3] = {0};
    uint32_t status = minorder_exact_diagram_many(refused_tables, 3, 4, 1, 3, many_orders, many_levels, nodes, 32, roots, many_totals);
    EXPECT((status == MINORDER_DONE) == (roots[0] != 0));
    return status;
}
static uint32_t check_total_call(void) {
    uint64_t itself = 2;
    minorder_pair pair;
    size_t count;
    return minorder_check_total(&itself, 1, 1, 1, (const uint8_t *)good, strlen(good), &answered_verdict, &answered_total, &pair, 1, &count);
}
static uint32_t certify_call(void) {
    char text[1024];
    size_t length;
    return minorder_certify(refused_tables, 3, 4, 3, NULL, 0, text, sizeof text, &length);
}

static uint32_t read_call(void) {
    minorder_pla pla = {0, 0, {{0, 0}}, {{0, 0}}};
    minorder_fault fault = {99, 99};
    uint64_t table = 0;
    uint32_t status = read_text(".i 2\n.o 1\n.ilb a b\n.ob f\n11 1\n00 1\n", &pla, &table, 1, &fault);
    EXPECT(fault.line == 99 && (status == MINORDER_DONE) == (table == 9) && (status == MINORDER_DONE) == (pla.inputs == 2));
    return status;
}

static void clear_answers(void) {
    memcpy(answered_order, given_order, sizeof given_order);
    memset(answered_levels, 0, sizeof answered_levels);
    answered_total = 0;
    answered_verdict = (minorder_verdict){99, 99, 99};
    memset(many_orders, 0, sizeof many_orders);
    memset(many_levels, 0, sizeof many_levels);
    memset(many_totals, 0, sizeof many_totals);
}

static void refuse_each(const char *name, uint32_t (*call)(void)) {
    static const uint32_t none[4];
    for (long allocation = 0;; allocation++) {
        clear_answers();
        long before = live_blocks;
        until_refused = allocation;
        uint32_t status = call();
        int reached = until_refused < 0;
        until_refused = -1;
        EXPECT(live_blocks == before);
        if (!reached) {
            EXPECT(status == MINORDER_DONE);
            printf("%s: each of %ld allocations refused in turn\n", name, allocation);
            return;
        }
        EXPECT(status == MINORDER_OUT_OF_MEMORY);
        EXPECT(memcmp(answered_order, given_order, sizeof given_order) == 0 && memcmp(answered_levels, none, sizeof none) == 0);
        EXPECT(answered_total == 0 && answered_verdict.reason == 99);
        for (int i = 0; i < 12; i++)
            EXPECT(many_orders[i] == 0 && many_levels[i] == 0 && many_totals[i / 4] == 0);
    }
}

static void refusals(void) {
    adder(refused_tables, 2);
    for (int i = 0; i < 4; i++)
        given_order[i] = (uint8_t)i;
    refuse_each("minorder_exact", exact_call);
    refuse_each("minorder_exact_above", above_call);
    refuse_each("minorder_levels", levels_call);
    refuse_each("minorder_diagram", diagram_call);
    refuse_each("minorder_exact_diagram", exact_diagram_call);
    refuse_each("minorder_sift", sift_call);
    refuse_each("minorder_orders", orders_call);
    refuse_each("minorder_orders of 11 inputs", large_orders_call);
    refuse_each("minorder_sizes", sizes_call);
    refuse_each("minorder_widths", widths_call);
    refuse_each("minorder_check", check_call);
    refuse_each("minorder_certify", certify_call);
    refuse_each("minorder_exact_many", many_call);
    refuse_each("minorder_exact_diagram_many", many_diagrams_call);
    refuse_each("minorder_check_total", check_total_call);
    refuse_each("minorder_read_pla", read_call);
}

/* ---- several threads, each with its own data */

struct task {
    uint64_t seed;
    uint64_t table[4];
    uint8_t order[8];
    uint32_t levels[8], total, status;
};

static void *solve(void *at) {
    struct task *task = at;
    for (int word = 0; word < 4; word++) {
        task->seed = task->seed * 6364136223846793005 + 1442695040888963407;
        task->table[word] = task->seed ^ task->seed >> 29;
    }
    for (int round = 0; round < 20; round++)
        task->status |= minorder_exact_with_lengths(task->table, 4, 8, 1, task->order, 8, task->levels, 8, &task->total);
    return NULL;
}

static void threads(void) {
    enum { COUNT = 8 };
    pthread_t running[COUNT];
    struct task tasks[COUNT], again[COUNT];
    for (int i = 0; i < COUNT; i++) {
        memset(&tasks[i], 0, sizeof tasks[i]);
        tasks[i].seed = again[i].seed = (uint64_t)i;
        EXPECT(pthread_create(&running[i], NULL, solve, &tasks[i]) == 0);
    }
    for (int i = 0; i < COUNT; i++)
        EXPECT(pthread_join(running[i], NULL) == 0);
    for (int i = 0; i < COUNT; i++) {
        again[i].status = 0;
        solve(&again[i]);
        EXPECT(tasks[i].status == 0 && again[i].status == 0 && tasks[i].total == again[i].total);
        EXPECT(memcmp(tasks[i].order, again[i].order, 8) == 0 && memcmp(tasks[i].levels, again[i].levels, sizeof again[i].levels) == 0);
    }
}

/* ---- one function, for a comparison with the program's report */

static int report(unsigned inputs, unsigned outputs) {
    size_t words = minorder_words(inputs) * outputs;
    uint64_t *tables = malloc(words * sizeof *tables);
    uint8_t order[16];
    uint32_t levels[16], total = 0;
    for (size_t i = 0; i < words; i++)
        if (scanf("%" SCNx64, &tables[i]) != 1)
            return 2;
    uint32_t status = minorder_exact_with_lengths(tables, words, inputs, outputs, order, inputs, levels, inputs, &total);
    if (status != MINORDER_DONE)
        return (int)status;
    printf("order:");
    for (unsigned i = 0; i < inputs; i++)
        printf(" %u", order[i]);
    printf("\nlevels:");
    for (unsigned i = 0; i < inputs; i++)
        printf(" %" PRIu32, levels[i]);
    printf("\nnodes: %" PRIu32 "\n", total);
    free(tables);
    return 0;
}

int main(int count, char **words) {
    if (count == 3)
        return report((unsigned)atoi(words[1]), (unsigned)atoi(words[2]));
    worked_cases();
    many_problems();
    diagrams();
    exact_diagrams();
    many_diagrams();
    certificates();
    written_certificates();
    pla_files();
    versions();
    no_pairs();
    npn_classes();
    all_orders();
    bad_arguments();
    refusals();
    threads();
    printf(failures ? "%d failed\n" : "all as expected\n", failures);
    return failures != 0;
}
