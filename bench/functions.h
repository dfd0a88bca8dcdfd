/* What the harnesses in C read: a PLA file of products (ON-set, at most 16 inputs and outputs), as a row of outputs for each point. */
#ifndef FUNCTIONS_H
#define FUNCTIONS_H
#include <stdint.h>
#include <stdio.h>
#include <stdlib.h>
#include <string.h>
#include <time.h>

static int inputs, outputs;
static uint16_t *rows; /* bit j of rows[point] is the value of output j */

static void fail(const char *why)
{
    fprintf(stderr, "%s\n", why);
    exit(3);
}

static void read_term(const char *product, const char *row)
{
    unsigned ones = 0, open = 0, on = 0, part;
    for (int i = 0; i < inputs; i++) {
        if (product[i] == '1') ones |= 1u << i;
        if (product[i] == '-') open |= 1u << i;
    }
    for (int j = 0; j < outputs; j++)
        if (row[j] == '1') on |= 1u << j;
    for (part = open;; part = (part - 1) & open) {
        rows[ones | part] |= (uint16_t)on;
        if (!part) break;
    }
}

static void read_file(const char *path)
{
    static char line[256], product[64], row[64];
    FILE *file = fopen(path, "r");
    if (!file) fail("can't open the file");
    free(rows);
    rows = NULL;
    while (fgets(line, sizeof line, file)) {
        /* a line that is longer, as a comment may be, is read to its end */
        size_t length = strlen(line);
        if (length && line[length - 1] != '\n')
            for (int c = 0; c != '\n' && c != EOF;) c = fgetc(file);
        if (sscanf(line, ".i %d", &inputs) == 1) continue;
        if (sscanf(line, ".o %d", &outputs) == 1) {
            if (inputs < 1 || inputs > 16 || outputs < 1 || outputs > 16) fail("1 to 16 inputs and outputs");
            rows = calloc((size_t)1 << inputs, sizeof *rows);
        } else if (line[0] != '.' && line[0] != '#' && sscanf(line, "%63s %63s", product, row) == 2)
            read_term(product, row);
    }
    fclose(file);
    if (!rows) fail("no functions");
}

static inline double milliseconds(void)
{
    struct timespec now;
    clock_gettime(CLOCK_MONOTONIC, &now);
    return now.tv_sec * 1e3 + now.tv_nsec / 1e6;
}

/* Prints how many milliseconds `fewest` takes a file of at most `most` inputs, its reading left out, and the sum of what it returns. */
static inline int time_files(int count, char **paths, int most, uint32_t (*fewest)(void))
{
    double taken = 0;
    unsigned long nodes = 0;
    for (int i = 1; i < count; i++) {
        read_file(paths[i]);
        if (inputs > most) fail("too many inputs");
        double start = milliseconds();
        nodes += fewest();
        taken += milliseconds() - start;
    }
    printf("%.6f ms a file, %lu nodes\n", taken / (count - 1), nodes);
    return 0;
}
#endif
