/*
 * Settles the graph P1: one majority of three inverted inputs, its output inverted.
 *
 * In the repository's root, after `rt lib` in crates/reducer:
 *
 *     gcc -Iinclude examples/settle_p1.c crates/reducer/out/libreducer.a -o target/settle_p1 && target/settle_p1
 */
#include <inttypes.h>
#include <stdio.h>

#include "reducer.h"

int main(void)
{
    uint32_t node_table[3] = {1, 2, 3}; /* the indices of the three inputs */
    uint64_t node_bits[REDUCER_BIT_WORDS(3)] = {7}; /* all three complemented */
    uint32_t output_table[1] = {4};
    uint64_t output_bits[REDUCER_BIT_WORDS(1)] = {1};
    uint8_t locks[1] = {0}; /* the node is free */
    uint32_t scratch[REDUCER_SETTLE_SCRATCH(1)];
    uint32_t figures[3];
    int64_t savings[2];
    uint32_t number = reducer_settle(3, 1, 1, node_table, 3, node_bits, REDUCER_BIT_WORDS(3), output_table, 1, output_bits,
                                     REDUCER_BIT_WORDS(1), locks, 1, scratch, REDUCER_SETTLE_SCRATCH(1), figures, savings);
    if (number != REDUCER_OK) {
        fprintf(stderr, "refused %" PRIu32 "\n", number);
        return 1;
    }
    printf("before %" PRIu32 " after %" PRIu32 " rounds %" PRIu32 "\n", figures[1], figures[2], figures[0]);
    printf("own %" PRId64 " others %" PRId64 "\n", savings[0], savings[1]);
    printf("node");
    for (size_t place = 0; place < 3; place++) {
        printf(" %" PRIu32, reducer_literal(node_table, node_bits, place));
    }
    printf(" out %" PRIu32 "\n", reducer_literal(output_table, output_bits, 0));
    return 0;
}
