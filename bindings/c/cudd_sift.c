/* How far CUDD's sifting ends from the optimum, for the hidden weighted bit functions (Bryant 1991).
   With CUDD as `bench/peers.sh PEERS` builds it:
   cc -O2 -w -DLIN64 -DSIZEOF_VOID_P=8 -DSIZEOF_LONG=8 -DSIZEOF_INT=4 -I include -I PEERS/abc/src \
       -I PEERS/abc/src/bdd/cudd bindings/c/cudd_sift.c lib/libminorder.a PEERS/libcudd.a -lm -lpthread */
#include <stdio.h>
#include <string.h>

#include "misc/util/util_hack.h"
#include "cudd.h"
#include "minorder.h"

static DdNode *diagram(DdManager *manager, const uint64_t *table, int inputs, int input, unsigned point) {
    if (input == inputs)
        return table[point / 64] >> point % 64 & 1 ? Cudd_ReadOne(manager) : Cudd_ReadLogicZero(manager);
    DdNode *low = diagram(manager, table, inputs, input + 1, point);
    Cudd_Ref(low);
    DdNode *high = diagram(manager, table, inputs, input + 1, point | 1u << input);
    Cudd_Ref(high);
    DdNode *node = Cudd_bddIte(manager, Cudd_bddIthVar(manager, input), high, low);
    Cudd_Ref(node);
    Cudd_RecursiveDeref(manager, low);
    Cudd_RecursiveDeref(manager, high);
    Cudd_Deref(node);
    return node;
}

int main(void) {
    for (int inputs = 6; inputs <= 14; inputs += 2) {
        uint64_t table[256] = {0};
        for (unsigned point = 1; point < 1u << inputs; point++)
            if (point >> (__builtin_popcount(point) - 1) & 1)
                table[point / 64] |= (uint64_t)1 << point % 64;
        DdManager *manager = Cudd_Init(inputs, 0, CUDD_UNIQUE_SLOTS, CUDD_CACHE_SLOTS, 0);
        DdNode *root = diagram(manager, table, inputs, 0, 0);
        Cudd_Ref(root);
        Cudd_ReduceHeap(manager, CUDD_REORDER_SIFT, 0);
        uint8_t order[16], best[16];
        uint32_t levels[16], sifted = 0, fewest = 0;
        for (int level = 0; level < inputs; level++)
            order[level] = (uint8_t)Cudd_ReadInvPerm(manager, level);
        size_t words = minorder_words((uint32_t)inputs);
        if (minorder_exact(table, words, inputs, 1, best, levels, &fewest) ||
            minorder_levels(table, words, inputs, 1, order, levels))
            return 1;
        for (int level = 0; level < inputs; level++)
            sifted += levels[level];
        printf("hwb%-2d  sifted by CUDD %5u  fewest %5u  ratio %.2f\n", inputs, sifted, fewest, (double)sifted / fewest);
        Cudd_RecursiveDeref(manager, root);
        Cudd_Quit(manager);
    }
    return 0;
}
