/* Reads `1-2` by the example book and prints the line of its value and the sum of its numbers: C and C++, to see that a
 * program in either links and runs. */
#include "midgebillon_tree.h"

#include <stdio.h>

static const uint8_t book[] = {
    0x00, 0x00, 0x01, 0x00, 0x04, 0x04, 0xFF, 0x03, 0x01, 0x01, 0x01, 0x00, 0x01, 0x03, 0x02, 0x00,
    0x01, 0x03, 0xFF, 0x03, 0x01, 0x03, 0x0A, 0x03, 0x00, 0x00, 0x00, 0x08, 0x00, 0x00, 0x00, 0x00,
    0x2D, 0x00, 0x00, 0x08, 0x00, 0x00, 0x00, 0x08, 0x00, 0x00, 0x00, 0x00, 0x2A, 0x00, 0x00, 0x08,
    0x00, 0x00, 0x00, 0x00, 0x28, 0x00, 0x00, 0x08, 0x00, 0x00, 0x00, 0x00, 0x29, 0x00, 0x00};
static const uint8_t text[] = {'1', '-', '2'};

static uint32_t cells[MIDGEBILLON_CELLS], parses[MIDGEBILLON_PARSES], answer[MIDGEBILLON_ANSWER];

/* The sum of a tree's numbers; a rule of three bytes is not deep. */
static uint64_t sum_of(const struct midgebillon_tree *tree, uint32_t cell) {
    uint32_t items[8];
    uint64_t sum = midgebillon_tree_number(tree, cell);
    size_t count = midgebillon_tree_items(tree, cell, items, sizeof items / sizeof *items);
    for (size_t i = 0; i < count; i++) sum += sum_of(tree, items[i]);
    return sum;
}

int main() {
    uint8_t line[128];
    const struct midgebillon_tree tree = {book, sizeof book, text, sizeof text, cells, MIDGEBILLON_CELLS};
    midgebillon_read(book, sizeof book, text, sizeof text, 0, MIDGEBILLON_ALLOWANCE, cells, MIDGEBILLON_CELLS, parses,
                     MIDGEBILLON_PARSES, answer, MIDGEBILLON_ANSWER);
    size_t length = midgebillon_print(book, sizeof book, text, sizeof text, cells, MIDGEBILLON_CELLS, answer,
                                      MIDGEBILLON_ANSWER, line, sizeof line);
    fwrite(line, 1, length, stdout);
    printf("sum %u\n", (unsigned)sum_of(&tree, answer[MIDGEBILLON_VALUE]));
    return 0;
}
