/* Reorders the functions of PLA files (products, ON-set, at most 16 inputs and outputs) by a method of CUDD.
   usage: cudd exact|sift FILE..
   Of one file it prints the order that CUDD ends at, top first, and CUDD's own size: with complement edges, the constant left out.
   Of several it prints how many milliseconds a file took, in one process, with a manager of its own and the file's reading left out. */
#include "misc/util/util_hack.h"
#include "cudd.h"
#include "functions.h"

static DdNode *build(DdManager *manager, int output, int input, unsigned point)
{
    DdNode *low, *high, *node;
    if (input == inputs) {
        node = rows[point] >> output & 1 ? Cudd_ReadOne(manager) : Cudd_ReadLogicZero(manager);
        Cudd_Ref(node);
        return node;
    }
    low = build(manager, output, input + 1, point);
    high = build(manager, output, input + 1, point | 1u << input);
    node = Cudd_bddIte(manager, Cudd_bddIthVar(manager, input), high, low);
    if (!node) fail("out of memory");
    Cudd_Ref(node);
    Cudd_RecursiveDeref(manager, low);
    Cudd_RecursiveDeref(manager, high);
    return node;
}

/* A manager with the functions that were read, in CUDD's first order. */
static DdManager *manager_of(DdNode **roots)
{
    DdManager *manager = Cudd_Init((unsigned)inputs, 0, CUDD_UNIQUE_SLOTS, CUDD_CACHE_SLOTS, 0);
    if (!manager) fail("out of memory");
    for (int j = 0; j < outputs; j++) roots[j] = build(manager, j, 0, 0);
    return manager;
}

static void time_reordering(Cudd_ReorderingType method, int count, char **paths)
{
    DdNode *roots[16];
    double taken = 0;
    for (int i = 0; i < count; i++) {
        read_file(paths[i]);
        double start = milliseconds();
        DdManager *manager = manager_of(roots);
        if (!Cudd_ReduceHeap(manager, method, 1)) fail("refused");
        for (int j = 0; j < outputs; j++) Cudd_RecursiveDeref(manager, roots[j]);
        Cudd_Quit(manager);
        taken += milliseconds() - start;
    }
    printf("%.3f ms a file\n", taken / count);
}

int main(int argc, char **argv)
{
    DdNode *roots[16];
    if (argc < 3) fail("usage: cudd exact|sift FILE..");
    Cudd_ReorderingType method = strcmp(argv[1], "exact") ? CUDD_REORDER_SIFT : CUDD_REORDER_EXACT;
    if (argc > 3) {
        time_reordering(method, argc - 2, argv + 2);
        return 0;
    }
    read_file(argv[2]);
    DdManager *manager = manager_of(roots);
    if (!Cudd_ReduceHeap(manager, method, 1)) fail("refused");
    printf("order:");
    for (int i = 0; i < inputs; i++) printf(" %d", Cudd_ReadInvPerm(manager, i));
    printf("\nnodes with complement edges: %d\n", Cudd_SharingSize(roots, outputs) - 1);
    return 0;
}
