/* The reordering methods of CUDD, and REO of ABC, on a PLA file.
   usage: league_cudd FILE SECONDS ORDER.. < jobs      league.h says what these are
   CUDD and REO count nodes with complement edges. */
#include "league.h"
#include "misc/util/util_hack.h"
#include "bdd/cudd/cuddInt.h"
#include "bdd/reo/reo.h"

static const struct {
    const char *name;
    Cudd_ReorderingType type;
} methods[] = {
    {"SIFT", CUDD_REORDER_SIFT}, {"SIFT_CONVERGE", CUDD_REORDER_SIFT_CONVERGE},
    {"SYMM_SIFT", CUDD_REORDER_SYMM_SIFT}, {"SYMM_SIFT_CONV", CUDD_REORDER_SYMM_SIFT_CONV},
    {"GROUP_SIFT", CUDD_REORDER_GROUP_SIFT}, {"GROUP_SIFT_CONV", CUDD_REORDER_GROUP_SIFT_CONV},
    {"WINDOW2", CUDD_REORDER_WINDOW2}, {"WINDOW2_CONV", CUDD_REORDER_WINDOW2_CONV},
    {"WINDOW3", CUDD_REORDER_WINDOW3}, {"WINDOW3_CONV", CUDD_REORDER_WINDOW3_CONV},
    {"WINDOW4", CUDD_REORDER_WINDOW4}, {"WINDOW4_CONV", CUDD_REORDER_WINDOW4_CONV},
    {"ANNEALING", CUDD_REORDER_ANNEALING}, {"GENETIC", CUDD_REORDER_GENETIC},
    {"LINEAR", CUDD_REORDER_LINEAR}, {"EXACT", CUDD_REORDER_EXACT},
};
static DdManager *manager;
static DdNode *roots[16];

static DdNode *build(int output, int input, unsigned point)
{
    DdNode *low, *high, *node;
    if (input == inputs) {
        node = rows[point] >> output & 1 ? Cudd_ReadOne(manager) : Cudd_ReadLogicZero(manager);
        Cudd_Ref(node);
        return node;
    }
    low = build(output, input + 1, point);
    high = build(output, input + 1, with_input(point, input));
    node = Cudd_bddIte(manager, Cudd_bddIthVar(manager, input), high, low);
    if (!node) fail("out of memory");
    Cudd_Ref(node);
    Cudd_RecursiveDeref(manager, low);
    Cudd_RecursiveDeref(manager, high);
    return node;
}

/* REO tells for each variable that the functions depend on which one has its place; the others follow, and cost nothing. */
static double reo(int *order)
{
    DdNode *results[16];
    int found[16], has[16] = {0}, count = 0;
    int *support = Cudd_VectorSupportIndex(manager, roots, outputs);
    double before = processor();
    reo_man *reorderer = Extra_ReorderInit(inputs, 1 << inputs);
    Extra_ReorderArray(reorderer, manager, roots, results, outputs, found);
    double seconds = processor() - before;
    for (int i = 0; i < inputs; i++)
        if (support[i]) {
            order[count++] = found[i];
            has[found[i]] = 1;
        }
    for (int i = 0; i < inputs; i++)
        if (!has[i]) order[count++] = i;
    if (count != inputs) fail("no order of REO's");
    return seconds;
}

static int is_plain(void)
{
    for (int i = 0; i < inputs; i++)
        for (int j = 0; j < inputs; j++)
            if (Cudd_ReadLinear(manager, i, j) != (i == j)) return 0;
    return 1;
}

static double job(const char *method, unsigned seed, int *order)
{
    if (!strcmp(method, "reo")) return reo(order);
    int chosen = -1;
    for (unsigned i = 0; i < sizeof methods / sizeof *methods; i++)
        if (!strcmp(method, methods[i].name)) chosen = (int)i;
    if (chosen < 0) fail("no such method");
    Cudd_Srandom((long)seed);
    double before = processor();
    if (!Cudd_ReduceHeap(manager, methods[chosen].type, 0)) fail("the method failed");
    double seconds = processor() - before;
    if (methods[chosen].type == CUDD_REORDER_LINEAR && !is_plain()) return -1;
    for (int i = 0; i < inputs; i++) order[i] = Cudd_ReadInvPerm(manager, i);
    return seconds;
}

int main(int argc, char **argv)
{
    unsigned limit = read_words(argc, argv);
    manager = Cudd_Init((unsigned)inputs, 0, CUDD_UNIQUE_SLOTS, 1 << 12, 0);
    for (int j = 0; j < outputs; j++) roots[j] = build(j, 0, 0);
    do_jobs(job, limit);
    return 0;
}
