/* Loads functions from a file of BuDDy's under an order, top first. Prints the number of nodes of all
   together, then of each its truth table in hexadecimal bytes, lowest points first.
   usage: buddy FILE FUNCTIONS ORDER.. */
#include <bdd.h>
#include <stdio.h>
#include <stdlib.h>

enum { MOST = 16 };

static int value_at(BDD f, unsigned point) {
    while (f != bddtrue && f != bddfalse)
        f = point >> bdd_var(f) & 1 ? bdd_high(f) : bdd_low(f);
    return f == bddtrue;
}

static void print_table(BDD f, int inputs) {
    unsigned points = 1u << inputs;
    for (unsigned start = 0; start < points; start += 8) {
        unsigned byte = 0;
        for (unsigned p = start; p < start + 8 && p < points; p++)
            byte |= (unsigned)value_at(f, p) << p % 8;
        printf("%02x", byte);
    }
    putchar('\n');
}

/* The file has one function behind the other, as bdd_load reads them. */
static int load_all(const char *path, BDD *functions, int count) {
    FILE *file = fopen(path, "r");
    int status = file == NULL ? BDD_FILE : 0;
    for (int j = 0; j < count && status >= 0; j++) {
        status = bdd_load(file, &functions[j]);
        if (status >= 0)
            bdd_addref(functions[j]);
    }
    if (file != NULL)
        fclose(file);
    return status;
}

int main(int words, char **word) {
    int count = words > 3 ? atoi(word[2]) : 0, inputs = words - 3, order[MOST];
    BDD functions[MOST];
    if (count < 1 || count > MOST || inputs < 1 || inputs > MOST) {
        fprintf(stderr, "usage: buddy FILE FUNCTIONS ORDER..\n");
        return 2;
    }
    for (int i = 0; i < inputs; i++)
        order[i] = atoi(word[3 + i]);
    if (bdd_init(1 << 16, 1 << 14) < 0 || bdd_setvarnum(inputs) < 0)
        return 1;
    bdd_gbc_hook(NULL);
    bdd_setvarorder(order);
    int status = load_all(word[1], functions, count);
    if (status < 0) {
        fprintf(stderr, "buddy: %s: %s\n", word[1], bdd_errstring(status));
        return 1;
    }
    printf("%d\n", bdd_anodecount(functions, count));
    for (int j = 0; j < count; j++)
        print_table(functions[j], inputs);
    /* bdd_fnload reads the first */
    BDD first;
    if (bdd_fnload(word[1], &first) < 0 || first != functions[0]) {
        fprintf(stderr, "buddy: %s: bdd_fnload reads another function\n", word[1]);
        return 1;
    }
    bdd_done();
    return 0;
}
