/* The margin rule reader, for C and C++: a value as a tree. Functions over the cells that midgebillon_read fills, by a
 * cell's number, so that a program need not know how cells are laid out. Header only; it calls nothing.
 *
 * This file is not proved. It is tested (tests/c/tree.c), on the values of readings and on numbers that no reading
 * gives, against the line of midgebillon_print, which is proved.
 *
 * A tree's nodes are variants, lists, identifiers, numbers, variables, declared ones too, and absents. A chain, which
 * is how cells hold the items of a variant or a list, is no node. The root is the cell answer[MIDGEBILLON_VALUE], or a
 * parse's, at MIDGEBILLON_CELL.
 *
 * Equal cells are made once and shared, so that a tree can have far more nodes than there are cells: with two items
 * that are the same cell, level by level, 2^n nodes for n levels. A walk over all nodes therefore needs a limit of its
 * own; and one that recurses a stack for the depth, up to some 2,000 levels. What depends on a cell alone is better
 * kept by its number and found once for each cell. A cell's items are always cells before it.
 *
 * Any numbers may stand in the lists: no function reads outside of them, and each ends, after at most as many steps as
 * there are cells or names. A cell that is not there or of another form than is asked for gives 0, or a part of length
 * 0. The pointers are never null, also where the length is 0. */
#ifndef MIDGEBILLON_TREE_H
#define MIDGEBILLON_TREE_H

#include "midgebillon.h"

#ifdef __cplusplus
extern "C" {
#endif

/* the lists of a call, after it; they must stay as they are while the tree is used */
struct midgebillon_tree {
    const uint8_t *book;
    size_t book_length;
    const uint8_t *text;
    size_t text_length;
    const uint32_t *cells;
    size_t cells_length;
};

/* a part of the text or of the book, with no zero byte behind it */
struct midgebillon_part {
    const uint8_t *at;
    size_t length;
};

/* the three numbers of a cell; all are 0 where the cell is not in the list */
struct midgebillon_cell {
    uint32_t form, a, b;
};

/* ---- Inside: cells and chains */

static inline struct midgebillon_cell midgebillon_cell_at(const struct midgebillon_tree *tree, uint32_t cell) {
    struct midgebillon_cell found = {0, 0, 0};
    if (cell != 0 && cell <= tree->cells_length / MIDGEBILLON_CELL_SIZE) {
        const uint32_t *at = tree->cells + ((size_t)cell - 1) * MIDGEBILLON_CELL_SIZE;
        found.form = at[0];
        found.a = at[1];
        found.b = at[2];
    }
    return found;
}

/* A cell refers to cells before it; any other number is none. So numbers fall along a chain, and it ends. */
static inline uint32_t midgebillon_older(uint32_t cell, uint32_t wanted) {
    return wanted < cell ? wanted : 0;
}

/* the chain of a variant's or a list's items, 0 of any other cell */
static inline uint32_t midgebillon_chain_of(const struct midgebillon_tree *tree, uint32_t cell) {
    struct midgebillon_cell found = midgebillon_cell_at(tree, cell);
    if (found.form == MIDGEBILLON_VARIANT_FORM) return midgebillon_older(cell, found.b);
    if (found.form == MIDGEBILLON_LIST_FORM) return midgebillon_older(cell, found.a);
    return 0;
}

/* a part of bytes, of length 0 where it is not wholly among them */
static inline struct midgebillon_part midgebillon_part_of(const uint8_t *bytes, size_t length, size_t place,
                                                          size_t size) {
    struct midgebillon_part part = {bytes, 0};
    if (place <= length && size <= length - place && size != 0) {
        part.at = bytes + place;
        part.length = size;
    }
    return part;
}

/* Where entry `number` of a section of the book, words or names, begins, which has its count at `section`; with the
 * section's count for `number`, where the section ends. A place that is not in the book is its length. */
static inline size_t midgebillon_entry(const struct midgebillon_tree *tree, size_t section, uint32_t number) {
    size_t place = section + 1, length = tree->book_length;
    for (uint32_t i = 0; i < number; i++) {
        /* an entry is a number, the length of a spelling, and the spelling */
        if (place + 1 >= length) return length;
        place += 2 + (size_t)tree->book[place + 1];
    }
    return place < length ? place : length;
}

/* the spelling of a starting name, by its number */
static inline struct midgebillon_part midgebillon_name_spelling(const struct midgebillon_tree *tree, uint32_t number) {
    struct midgebillon_part none = {tree->book, 0};
    size_t names, place;
    if (tree->book_length == 0) return none;
    names = midgebillon_entry(tree, 0, tree->book[0]);
    if (names == tree->book_length || number >= tree->book[names]) return none;
    place = midgebillon_entry(tree, names, number);
    if (tree->book_length - place < 2) return none;
    return midgebillon_part_of(tree->book, tree->book_length, place + 2, tree->book[place + 1]);
}

/* ---- The nodes */

/* What a cell is: MIDGEBILLON_VARIANT_FORM, _LIST_FORM, _NAME_FORM, _NUMBER_FORM, _VARIABLE_FORM, _DECLARED_FORM or
 * _ABSENT_FORM; 0 where it is no node: not in the list, not made, or a chain. */
static inline uint32_t midgebillon_tree_form(const struct midgebillon_tree *tree, uint32_t cell) {
    uint32_t form = midgebillon_cell_at(tree, cell).form;
    return MIDGEBILLON_VARIANT_FORM <= form && form <= MIDGEBILLON_DECLARED_FORM ? form : 0;
}

/* a variant's number in the book, from 0 */
static inline uint32_t midgebillon_tree_variant(const struct midgebillon_tree *tree, uint32_t cell) {
    struct midgebillon_cell found = midgebillon_cell_at(tree, cell);
    return found.form == MIDGEBILLON_VARIANT_FORM ? found.a : 0;
}

/* how many items a variant or a list has */
static inline size_t midgebillon_tree_count(const struct midgebillon_tree *tree, uint32_t cell) {
    size_t count = 0;
    uint32_t chain = midgebillon_chain_of(tree, cell);
    struct midgebillon_cell link = midgebillon_cell_at(tree, chain);
    while (link.form == MIDGEBILLON_CHAIN_FORM) {
        count++;
        chain = midgebillon_older(chain, link.a);
        link = midgebillon_cell_at(tree, chain);
    }
    return count;
}

/* The cells of a variant's or a list's items, in the order of the text, written to the front of `items`; gives how many
 * there are. Where that is more than `items_length`, nothing is written. */
static inline size_t midgebillon_tree_items(const struct midgebillon_tree *tree, uint32_t cell, uint32_t *items,
                                            size_t items_length) {
    size_t count = midgebillon_tree_count(tree, cell), left = count;
    uint32_t chain = midgebillon_chain_of(tree, cell);
    if (count > items_length) return count;
    /* a chain lists its last item first */
    while (left != 0) {
        struct midgebillon_cell link = midgebillon_cell_at(tree, chain);
        items[--left] = midgebillon_older(chain, link.b);
        chain = midgebillon_older(chain, link.a);
    }
    return count;
}

/* the value of a number */
static inline uint64_t midgebillon_tree_number(const struct midgebillon_tree *tree, uint32_t cell) {
    struct midgebillon_cell found = midgebillon_cell_at(tree, cell);
    return found.form == MIDGEBILLON_NUMBER_FORM ? (uint64_t)found.a << 32 | found.b : 0;
}

/* the spelling of an identifier, a part of the text, or of a variable, a part of the book */
static inline struct midgebillon_part midgebillon_tree_spelling(const struct midgebillon_tree *tree, uint32_t cell) {
    struct midgebillon_part none = {tree->text, 0};
    struct midgebillon_cell found = midgebillon_cell_at(tree, cell);
    if (found.form == MIDGEBILLON_NAME_FORM)
        return midgebillon_part_of(tree->text, tree->text_length, found.a, found.b);
    if (found.form == MIDGEBILLON_VARIABLE_FORM) return midgebillon_name_spelling(tree, found.a);
    return none;
}

/* the number of a variable's name among the book's starting names, from 0 */
static inline uint32_t midgebillon_tree_name(const struct midgebillon_tree *tree, uint32_t cell) {
    struct midgebillon_cell found = midgebillon_cell_at(tree, cell);
    return found.form == MIDGEBILLON_VARIABLE_FORM ? found.a : 0;
}

/* a variable's kind */
static inline uint32_t midgebillon_tree_kind(const struct midgebillon_tree *tree, uint32_t cell) {
    struct midgebillon_cell found = midgebillon_cell_at(tree, cell);
    return found.form == MIDGEBILLON_VARIABLE_FORM ? found.b : 0;
}

/* of a declared variable, how many openings that were read lie between it and its binder */
static inline uint32_t midgebillon_tree_depth(const struct midgebillon_tree *tree, uint32_t cell) {
    struct midgebillon_cell found = midgebillon_cell_at(tree, cell);
    return found.form == MIDGEBILLON_DECLARED_FORM ? found.a : 0;
}

/* of a declared variable, its index among its binder's names, from 0 */
static inline uint32_t midgebillon_tree_index(const struct midgebillon_tree *tree, uint32_t cell) {
    struct midgebillon_cell found = midgebillon_cell_at(tree, cell);
    return found.form == MIDGEBILLON_DECLARED_FORM ? found.b : 0;
}

#ifdef __cplusplus
}
#endif

#endif
