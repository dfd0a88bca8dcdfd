/* Exact minimum variable orders of shared reduced ordered binary decision diagrams, for C and C++.

   Functions are given as truth tables in words of 64 points: bit p % 64 of word p / 64 of a table is its value at the point p,
   and bit i of p is the value of variable i. A table of n variables takes minorder_words(n) words; where n is below 6 it takes
   one, whose bits from 2^n on are ignored. The tables of all outputs stand one after the other in `tables`, and `words` is the
   number of all their words.

   An order lists each variable once, top first. Level counts are numbers of decision nodes, top level first: one root an
   output, no complement edges, terminals not counted.

   Each call runs on the calling thread and keeps nothing: threads may call at the same time, each with its own data. Pointers
   are never null, also where a length is 0 (but where a call says so), and what a call writes overlaps nothing else that it is
   given. Memory comes from malloc and realloc and goes back to free before the call returns: the three are those
   of one allocator, and its blocks are aligned to 16 bytes. Don't call from a signal handler, nor in a child that a process with
   several threads has forked.

   The library has each function that is inline here as a symbol, too, for callers in other languages. */
#ifndef MINORDER_H
#define MINORDER_H

#include <stddef.h>
#include <stdint.h>

#ifdef __cplusplus
extern "C" {
#endif

/* How the functions below are defined. The library defines it as nothing, once, which makes them its symbols. */
#ifndef MINORDER_INLINE
#define MINORDER_INLINE static inline
#endif

/* A pointer as another type of pointer: for the functions below alone. */
#ifdef __cplusplus
#define MINORDER_POINTER(type, pointer) reinterpret_cast<type>(pointer)
#else
#define MINORDER_POINTER(type, pointer) ((type)(pointer))
#endif

/* The version of the library that this header belongs to. */
#define MINORDER_VERSION "1.0.0"

/* The version of the library that is called: 10000 for 1.0.0, 10203 for 1.2.3. */
uint32_t minorder_version(void);

/* How a call ends. Where it isn't MINORDER_DONE the call has written nothing, but what its own comment says at MINORDER_SHORT_TEXT,
   and the fault at MINORDER_BAD_PLA. */
enum {
    MINORDER_DONE = 0,
    /* inputs or outputs isn't 1 to 16, or a length isn't what these ask for */
    MINORDER_BAD_SHAPE = 2,
    /* the text is no certificate */
    MINORDER_BAD_CERTIFICATE = 3,
    MINORDER_OUT_OF_MEMORY = 4,
    /* the order hasn't each variable once */
    MINORDER_BAD_ORDER = 5,
    /* there is more to write than there is room for */
    MINORDER_SHORT_TEXT = 7,
    /* a pair has another variable, or the pairs lead from a variable back to itself */
    MINORDER_BAD_PAIRS = 8,
    /* the text is no PLA file */
    MINORDER_BAD_PLA = 9
};

/* The words of a status. */
MINORDER_INLINE const char *minorder_status_text(uint32_t status) {
    switch (status) {
    case MINORDER_DONE: return "done";
    case MINORDER_BAD_SHAPE: return "the number of inputs or outputs isn't 1 to 16, or a length isn't what these ask for";
    case MINORDER_BAD_CERTIFICATE: return "the text is no certificate";
    case MINORDER_OUT_OF_MEMORY: return "out of memory";
    case MINORDER_BAD_ORDER: return "the order hasn't each variable once";
    case MINORDER_SHORT_TEXT: return "there is more to write than there is room for";
    case MINORDER_BAD_PAIRS: return "a pair has another variable, or the pairs lead from a variable back to itself";
    case MINORDER_BAD_PLA: return "the text is no PLA file";
    default: return "no status of this library";
    }
}

/* How many words the truth table of a function takes; 0 above 16 inputs, of which there are no such functions. */
MINORDER_INLINE size_t minorder_words(uint32_t inputs) {
    size_t one = 1;
    return inputs < 6 ? one : inputs <= 16 ? one << (inputs - 6) : 0;
}

/* Pairs of variables: `above` has to stand above `below`. */
typedef struct {
    uint8_t above, below;
} minorder_pair;

/* A node of a diagram: its variable, and its children where that is 0 and where it is 1. 0 and 1 are the terminals, k + 2 is
   node k. */
typedef struct {
    uint32_t variable, low, high;
} minorder_node;

/* What all orders have, or all that keep given pairs: how many they are, the fewest and the most nodes, how many orders have so many,
   and the sum of the nodes of all orders. */
typedef struct {
    uint64_t orders, optimal_orders, worst_orders, total_nodes;
    uint32_t fewest_nodes, most_nodes;
} minorder_figures;

/* The calls as the library has them, with the lengths of all arrays; those behind them ask for `inputs` entries of each. */
uint32_t minorder_exact_with_lengths(const uint64_t *tables, size_t words, uint32_t inputs, uint32_t outputs,
                                     uint8_t *order, size_t order_length, uint32_t *levels, size_t levels_length, uint32_t *total);
uint32_t minorder_exact_above_with_lengths(const uint64_t *tables, size_t words, uint32_t inputs, uint32_t outputs,
                                           const minorder_pair *pairs, size_t count,
                                           uint8_t *order, size_t order_length, uint32_t *levels, size_t levels_length, uint32_t *total);
uint32_t minorder_certify_with_pairs(const uint64_t *tables, size_t words, uint32_t inputs, uint32_t outputs,
                                     const minorder_pair *pairs, size_t count, uint8_t *text, size_t room, size_t *length);
uint32_t minorder_levels_with_lengths(const uint64_t *tables, size_t words, uint32_t inputs, uint32_t outputs,
                                      const uint8_t *order, size_t order_length, uint32_t *levels, size_t levels_length);
uint32_t minorder_diagram_with_lengths(const uint64_t *tables, size_t words, uint32_t inputs, uint32_t outputs,
                                       const uint8_t *order, size_t order_length, minorder_node *nodes, size_t room,
                                       uint32_t *roots, size_t roots_length, size_t *count);
uint32_t minorder_exact_diagram_with_lengths(const uint64_t *tables, size_t words, uint32_t inputs, uint32_t outputs,
                                             uint8_t *order, size_t order_length, uint32_t *levels, size_t levels_length,
                                             minorder_node *nodes, size_t room, uint32_t *roots, size_t roots_length, uint32_t *total);
uint32_t minorder_exact_many_with_lengths(const uint64_t *tables, size_t words, uint32_t inputs, uint32_t outputs,
                                          uint8_t *orders, size_t orders_length, uint32_t *levels, size_t levels_length,
                                          uint32_t *totals, size_t count);
uint32_t minorder_exact_diagram_many_with_lengths(const uint64_t *tables, size_t words, uint32_t inputs, uint32_t outputs,
                                                  uint32_t *totals, size_t count, uint8_t *orders, size_t orders_length,
                                                  uint32_t *levels, size_t levels_length, minorder_node *nodes, size_t room,
                                                  uint32_t *roots, size_t roots_length);
uint32_t minorder_orders_with_pairs(const uint64_t *tables, size_t words, uint32_t inputs, uint32_t outputs,
                                    const minorder_pair *pairs, size_t count, minorder_figures *figures);
uint32_t minorder_sizes_with_pairs(const uint64_t *tables, size_t words, uint32_t inputs, uint32_t outputs,
                                   const minorder_pair *pairs, size_t count, uint32_t most, uint64_t *orders, size_t room,
                                   uint32_t *fewest, size_t *sizes);
uint32_t minorder_widths_with_lengths(const uint64_t *tables, size_t words, uint32_t inputs, uint32_t outputs,
                                      uint32_t *widths, size_t widths_length);
uint32_t minorder_sift_with_lengths(const uint64_t *tables, size_t words, uint32_t inputs, uint32_t outputs,
                                    uint8_t *order, size_t order_length, uint32_t *levels, size_t levels_length, uint32_t *total);

/* As many entries as so many variables or outputs ask for; 0 where there are no such functions, which is then a bad shape. */
static inline size_t minorder_places(uint32_t count) { return count <= 16 ? count : 0; }

/* Writes the first order of the fewest nodes, its level counts and its size. `order` and `levels` have `inputs` entries.

   The functions of an NPN class all have the same fewest nodes: these stay if inputs are permuted or complemented, and if all outputs
   are complemented. If g(x) = f(y), where y_i is x_p(i) or its complement, and i_0, i_1, .. is an order of the fewest nodes of f, then
   p(i_0), p(i_1), .. is one of g, though perhaps not the first, and has the same level counts. */
MINORDER_INLINE uint32_t minorder_exact(const uint64_t *tables, size_t words, uint32_t inputs, uint32_t outputs,
                                      uint8_t *order, uint32_t *levels, uint32_t *total) {
    size_t places = minorder_places(inputs);
    return minorder_exact_with_lengths(tables, words, inputs, outputs, order, places, levels, places, total);
}

/* The same among the orders that keep `count` pairs. A pair may be given twice; without pairs `pairs` may be null. */
MINORDER_INLINE uint32_t minorder_exact_above(const uint64_t *tables, size_t words, uint32_t inputs, uint32_t outputs,
                                            const minorder_pair *pairs, size_t count,
                                            uint8_t *order, uint32_t *levels, uint32_t *total) {
    size_t places = minorder_places(inputs);
    const minorder_pair none = {0, 0};
    if (count == 0)
        pairs = &none;
    return minorder_exact_above_with_lengths(tables, words, inputs, outputs, pairs, count, order, places, levels, places, total);
}

/* The same as minorder_exact for each of `count` problems that have as many inputs and outputs. Their tables stand one behind the
   other, and so do the answers: `orders` and `levels` have `inputs` entries for each, `totals` has one. `words` is the number of all
   words. Where `count` is 0 pointers may be null. */
MINORDER_INLINE uint32_t minorder_exact_many(const uint64_t *tables, size_t words, uint32_t inputs, uint32_t outputs, size_t count,
                                             uint8_t *orders, uint32_t *levels, uint32_t *totals) {
    size_t places = count * minorder_places(inputs);
    uint64_t no_table = 0;
    uint8_t no_order = 0;
    uint32_t no_level = 0, no_total = 0;
    if (count == 0) {
        tables = &no_table;
        orders = &no_order;
        levels = &no_level;
        totals = &no_total;
    }
    return minorder_exact_many_with_lengths(tables, words, inputs, outputs, orders, places, levels, places, totals, count);
}

/* Writes the text of the certificate of the first order of the fewest nodes among those that keep `count` pairs, and its length: what
   `minorder --cert` writes, in format 2, which minorder_check accepts. `text` has `room` bytes; if the text is longer, only the
   length is written and the call returns MINORDER_SHORT_TEXT. No terminating 0 is written. Without pairs `pairs` may be null, and
   without room `text`. It takes as long as a run with --cert, longer than minorder_exact. */
MINORDER_INLINE uint32_t minorder_certify(const uint64_t *tables, size_t words, uint32_t inputs, uint32_t outputs,
                                        const minorder_pair *pairs, size_t count, char *text, size_t room, size_t *length) {
    const minorder_pair no_pair = {0, 0};
    uint8_t no_text = 0;
    return minorder_certify_with_pairs(tables, words, inputs, outputs, count == 0 ? &no_pair : pairs, count,
                                       room == 0 ? &no_text : MINORDER_POINTER(uint8_t *, text), room, length);
}

/* Writes the level counts under an order. `order` and `levels` have `inputs` entries. */
MINORDER_INLINE uint32_t minorder_levels(const uint64_t *tables, size_t words, uint32_t inputs, uint32_t outputs,
                                       const uint8_t *order, uint32_t *levels) {
    size_t places = minorder_places(inputs);
    return minorder_levels_with_lengths(tables, words, inputs, outputs, order, places, levels, places);
}

/* Writes the reduced shared diagram under an order: its nodes, level by level from the bottom, so children before their parents; the
   root of each output, 0, 1 or k + 2 for node k; and the number of nodes, the sum of the level counts. `order` has `inputs` entries,
   `roots` has `outputs`, `nodes` has `room`. If there are more nodes, only their number is written and the call returns
   MINORDER_SHORT_TEXT. Without room `nodes` may be null. */
MINORDER_INLINE uint32_t minorder_diagram(const uint64_t *tables, size_t words, uint32_t inputs, uint32_t outputs,
                                          const uint8_t *order, minorder_node *nodes, size_t room, uint32_t *roots, size_t *count) {
    minorder_node no_node = {0, 0, 0};
    return minorder_diagram_with_lengths(tables, words, inputs, outputs, order, minorder_places(inputs), room == 0 ? &no_node : nodes,
                                         room, roots, minorder_places(outputs), count);
}

/* What minorder_exact writes and the reduced diagram under that order, as minorder_diagram writes it: `nodes` has `room` entries, of
   which `total` are written, and `roots` has `outputs`. If there are more nodes than room, the order, its level counts and its size
   are written, no nodes and roots, and the call returns MINORDER_SHORT_TEXT. Without room `nodes` may be null. */
MINORDER_INLINE uint32_t minorder_exact_diagram(const uint64_t *tables, size_t words, uint32_t inputs, uint32_t outputs,
                                                uint8_t *order, uint32_t *levels, minorder_node *nodes, size_t room, uint32_t *roots,
                                                uint32_t *total) {
    size_t places = minorder_places(inputs);
    minorder_node no_node = {0, 0, 0};
    return minorder_exact_diagram_with_lengths(tables, words, inputs, outputs, order, places, levels, places,
                                               room == 0 ? &no_node : nodes, room, roots, minorder_places(outputs), total);
}

/* The same for each of `count` problems, as minorder_exact_many has them. `nodes` gets the diagrams one behind the other, of each
   problem as many nodes as its entry of `totals`, in which k + 2 is node k of its own problem; `roots` has `outputs` entries for each.
   If the sum of the sizes is more than `room`, no nodes and roots are written and the call returns MINORDER_SHORT_TEXT. Where `count`
   is 0 pointers may be null. */
MINORDER_INLINE uint32_t minorder_exact_diagram_many(const uint64_t *tables, size_t words, uint32_t inputs, uint32_t outputs, size_t count,
                                                     uint8_t *orders, uint32_t *levels, minorder_node *nodes, size_t room,
                                                     uint32_t *roots, uint32_t *totals) {
    size_t places = count * minorder_places(inputs), all_roots = count * minorder_places(outputs);
    uint64_t no_table = 0;
    uint8_t no_order = 0;
    uint32_t no_level = 0, no_root = 0, no_total = 0;
    minorder_node no_node = {0, 0, 0};
    if (count == 0) {
        tables = &no_table;
        orders = &no_order;
        levels = &no_level;
        roots = &no_root;
        totals = &no_total;
        room = 0;
    }
    return minorder_exact_diagram_many_with_lengths(tables, words, inputs, outputs, totals, count, orders, places, levels, places,
                                                    room == 0 ? &no_node : nodes, room, roots, all_roots);
}

/* Puts in the place of an order what one pass of sifting makes of it, and writes its level counts and its size. `order` and
   `levels` have `inputs` entries. */
MINORDER_INLINE uint32_t minorder_sift(const uint64_t *tables, size_t words, uint32_t inputs, uint32_t outputs,
                                     uint8_t *order, uint32_t *levels, uint32_t *total) {
    size_t places = minorder_places(inputs);
    return minorder_sift_with_lengths(tables, words, inputs, outputs, order, places, levels, places, total);
}

/* Writes what all orders have that keep `count` pairs; without pairs `pairs` may be null. It finds the widths of all sets of variables,
   which takes longer than minorder_exact where that leaves most of them out, and 112 bytes for each set beside the memory in which
   widths are found. */
MINORDER_INLINE uint32_t minorder_orders(const uint64_t *tables, size_t words, uint32_t inputs, uint32_t outputs,
                                       const minorder_pair *pairs, size_t count, minorder_figures *figures) {
    const minorder_pair none = {0, 0};
    return minorder_orders_with_pairs(tables, words, inputs, outputs, count == 0 ? &none : pairs, count, figures);
}

/* Writes how many of the orders that keep `count` pairs have each size up to `most` nodes: orders[i] is how many have *fewest + i, for
   *sizes entries, of which the first and the last aren't 0. If no order has so few as `most`, both numbers are 0. `orders` has `room`
   entries; if there are more, only the two numbers are written and the call returns MINORDER_SHORT_TEXT. So the orders that are better
   than one of n nodes are the sum of the entries up to n - 1, which costs little if they are few. Without pairs `pairs` may be null,
   and without room `orders`. Beside what minorder_orders takes it needs 8 bytes for each size up to `most` that the orders of a set can
   have, for the sets of two layers: 2.2 GB for the product of two numbers of 8 bits without a bound. */
MINORDER_INLINE uint32_t minorder_sizes(const uint64_t *tables, size_t words, uint32_t inputs, uint32_t outputs,
                                      const minorder_pair *pairs, size_t count, uint32_t most, uint64_t *orders, size_t room,
                                      uint32_t *fewest, size_t *sizes) {
    const minorder_pair no_pair = {0, 0};
    uint64_t no_size = 0;
    return minorder_sizes_with_pairs(tables, words, inputs, outputs, count == 0 ? &no_pair : pairs, count, most,
                                     room == 0 ? &no_size : orders, room, fewest, sizes);
}

/* Writes the widths of all sets of variables: at mask * inputs + x how many nodes the level of x has where the other members of the set
   are below it, and 0 where x isn't a member. A set's mask has the bit 1 << x for each member x. `widths` has inputs << inputs
   entries. The size of an order is the sum of the widths of its variables, each over those below it. */
MINORDER_INLINE uint32_t minorder_widths(const uint64_t *tables, size_t words, uint32_t inputs, uint32_t outputs, uint32_t *widths) {
    size_t places = minorder_places(inputs);
    return minorder_widths_with_lengths(tables, words, inputs, outputs, widths, places << places);
}

/* Why a certificate isn't good: the first of these that applies, edges by mask and then by variable. */
enum {
    MINORDER_VALID = 0,
    MINORDER_SHAPE = 1,        /* its inputs or outputs are others */
    MINORDER_ORDER = 2,        /* its order hasn't each variable once */
    MINORDER_PAIRS = 3,        /* its order breaks a pair */
    MINORDER_LEVELS = 4,       /* its levels are not its order's level counts */
    MINORDER_TOTAL = 5,        /* its total is not the sum of its levels */
    MINORDER_START = 6,        /* the value of the empty set is not 0 */
    MINORDER_CELL_TOO_BIG = 7, /* a listed cost, with the nodes above its set, is above the total */
    MINORDER_EDGE = 8          /* from the set `mask` by `variable` the value rises by more than the width */
};

/* The word of a reason, as ordercheck prints it. */
MINORDER_INLINE const char *minorder_reason_text(uint32_t reason) {
    static const char *const words[] = {"Valid", "Shape", "Order", "Pairs", "Levels", "Total", "Start", "CellTooBig", "Edge"};
    return reason <= MINORDER_EDGE ? words[reason] : "no reason of this library";
}

typedef struct {
    uint32_t reason;
    uint32_t mask, variable; /* of an edge, else 0 */
} minorder_verdict;

/* Writes the verdict on a certificate's text of so many bytes. */
uint32_t minorder_check(const uint64_t *tables, size_t words, uint32_t inputs, uint32_t outputs,
                        const uint8_t *certificate, size_t length, minorder_verdict *verdict);

/* As many pairs as a certificate has at most. */
enum { MINORDER_MOST_PAIRS = 240 };

uint32_t minorder_check_total_with_pairs(const uint64_t *tables, size_t words, uint32_t inputs, uint32_t outputs,
                                         const uint8_t *certificate, size_t length, minorder_verdict *verdict, uint32_t *total,
                                         minorder_pair *pairs, size_t room, size_t *count);

/* The same, and what the certificate states: its total, and how many pairs it has. If it is valid, its order has `total` nodes and
   no order that keeps its pairs has fewer; only if `count` is 0 are that all orders. `pairs` has `room` entries and gets the
   certificate's pairs, the first ones if it has more. Without room it may be null. */
MINORDER_INLINE uint32_t minorder_check_total(const uint64_t *tables, size_t words, uint32_t inputs, uint32_t outputs,
                                              const uint8_t *certificate, size_t length, minorder_verdict *verdict, uint32_t *total,
                                              minorder_pair *pairs, size_t room, size_t *count) {
    minorder_pair no_pair = {0, 0};
    return minorder_check_total_with_pairs(tables, words, inputs, outputs, certificate, length, verdict, total,
                                           room == 0 ? &no_pair : pairs, room, count);
}

/* A name, as a part of a text that spells it: the place of its first byte, and how many bytes it has; 0 and 0 where there is no
   name. */
typedef struct {
    size_t start, length;
} minorder_name;

/* What a PLA file says besides its truth tables. The first `inputs` and `outputs` names count. */
typedef struct {
    uint32_t inputs, outputs;
    minorder_name input_names[16], output_names[16];
} minorder_pla;

/* What is wrong with a PLA file: its first faulty line, counted from 1, and how. The line is 0 of an empty text, and of TooLong. */
typedef struct {
    size_t line;
    uint32_t kind; /* 1 to 15, in the order of minorder_fault_text */
} minorder_fault;

/* The words of a fault's kind, as minorder prints it. Above 16,777,216 bytes it is TooLong. */
MINORDER_INLINE const char *minorder_fault_text(uint32_t kind) {
    static const char *const words[] = {
        "MissingHead", "RepeatedHead", "InputCount", "OutputCount", "BadNumber", "NameCount", "BadName", "UnknownDirective",
        "UnsupportedType", "DontCare", "BadInputChar", "BadOutputChar", "ShortTerm", "LongTerm", "TooLong"};
    return 1 <= kind && kind <= 15 ? words[kind - 1] : "no fault of this library";
}

/* As many words as the truth tables of a PLA file take at most. */
enum { MINORDER_MOST_WORDS = 16384 };

uint32_t minorder_read_pla_with_lengths(const uint8_t *text, size_t length, uint32_t *inputs, uint32_t *outputs,
                                        minorder_name *input_names, size_t input_places,
                                        minorder_name *output_names, size_t output_places,
                                        uint64_t *tables, size_t room, minorder_fault *fault);

/* Reads the text of a PLA file of so many bytes, as minorder does: writes its numbers of inputs and outputs, parts of the text that
   spell its names, and the truth tables of its functions, `outputs` times minorder_words(inputs) words of the `room` in `tables`. If
   there is less room, all but the tables is written and the call returns MINORDER_SHORT_TEXT. Of a text that is no PLA file only the
   first fault is written, and the call returns MINORDER_BAD_PLA. Without bytes `text` may be null, and without room `tables`. */
MINORDER_INLINE uint32_t minorder_read_pla(const char *text, size_t length, minorder_pla *pla, uint64_t *tables, size_t room,
                                           minorder_fault *fault) {
    const uint8_t no_text = 0;
    uint64_t no_table = 0;
    return minorder_read_pla_with_lengths(length == 0 ? &no_text : MINORDER_POINTER(const uint8_t *, text), length, &pla->inputs,
                                          &pla->outputs, pla->input_names, 16, pla->output_names, 16, room == 0 ? &no_table : tables, room, fault);
}

#undef MINORDER_POINTER

#ifdef __cplusplus
}
#endif

#endif
