/* The reordering methods of BuDDy on a PLA file.
   usage: league_buddy FILE SECONDS ORDER.. < jobs      league.h says what these are
   BuDDy has no complement edges. Its window and sifting methods move blocks, so each variable is a block of its own. */
#include "league.h"
#include <bdd.h>

static const struct {
    const char *name;
    int type;
} methods[] = {
    {"WIN2", BDD_REORDER_WIN2}, {"WIN2ITE", BDD_REORDER_WIN2ITE}, {"WIN3", BDD_REORDER_WIN3}, {"WIN3ITE", BDD_REORDER_WIN3ITE},
    {"SIFT", BDD_REORDER_SIFT}, {"SIFTITE", BDD_REORDER_SIFTITE}, {"RANDOM", BDD_REORDER_RANDOM},
};

static BDD build(int output, int input, unsigned point)
{
    if (input == inputs) return rows[point] >> output & 1 ? bddtrue : bddfalse;
    BDD low = bdd_addref(build(output, input + 1, point));
    BDD high = bdd_addref(build(output, input + 1, with_input(point, input)));
    BDD node = bdd_addref(bdd_ite(bdd_ithvar(input), high, low));
    bdd_delref(low);
    bdd_delref(high);
    bdd_delref(node); /* the caller takes its own reference before the next call */
    return node;
}

static double job(const char *method, unsigned seed, int *order)
{
    int chosen = -1;
    for (unsigned i = 0; i < sizeof methods / sizeof *methods; i++)
        if (!strcmp(method, methods[i].name)) chosen = (int)i;
    if (chosen < 0) fail("no such method");
    srand(seed);
    double before = processor();
    bdd_reorder(methods[chosen].type);
    double seconds = processor() - before;
    for (int i = 0; i < inputs; i++) order[i] = bdd_level2var(i);
    return seconds;
}

int main(int argc, char **argv)
{
    unsigned limit = read_words(argc, argv);
    bdd_init(1 << 14, 1 << 14);
    bdd_gbc_hook(NULL);
    bdd_setmaxincrease(1 << 22);
    bdd_setvarnum(inputs);
    bdd_reorder_verbose(0);
    for (int i = 0; i < inputs; i++) bdd_intaddvarblock(i, i, BDD_REORDER_FIXED);
    for (int j = 0; j < outputs; j++) bdd_addref(build(j, 0, 0));
    do_jobs(job, limit);
    return 0;
}
