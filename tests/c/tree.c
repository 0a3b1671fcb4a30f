/* tree CASES: the cursor of include/midgebillon_tree.h, on the cells of readings, on cells that no reading makes, and
 * on damaged books. Every list stands in a heap block of exactly its length, so that the sanitizers see what reads
 * beyond it: the cursor is compiled with this program. What it says is compared with the line of midgebillon_print,
 * which goes the same way through any cells. CASES has books and texts. Exit status 0 if all is well. */
#include "check.h"
#include "midgebillon_tree.h"

enum {
    MOST_ROOM = 1 << 14, /* the longest line that is compared; a tree can be far larger */
    RANDOM_CELLS = 30000,
    RANDOM_BOOKS = 30000
};

/* A block of exactly this size. A block of no bytes has one by malloc, which the sanitizer lets pass; so such a list
 * stands where an array ends. */
static void *exact_room(size_t size) {
    static uint64_t array[1];
    return size ? room_for(size) : array + 1;
}

static void *exact(const void *bytes, size_t size) {
    void *block = exact_room(size);
    if (size) memcpy(block, bytes, size);
    return block;
}

static void give_back(const void *block, size_t size) {
    if (size) free((void *)block);
}

static struct midgebillon_tree tree_of(struct bytes book, struct bytes text, const uint32_t *cells, size_t length) {
    struct midgebillon_tree tree = {exact(book.at, book.length), book.length, exact(text.at, text.length), text.length,
                                    exact(cells, length * sizeof *cells), length};
    return tree;
}

static void free_tree(struct midgebillon_tree tree) {
    give_back(tree.book, tree.book_length);
    give_back(tree.text, tree.text_length);
    give_back(tree.cells, tree.cells_length);
}

/* ---- The line of a value, by the cursor */

struct line {
    uint8_t at[MOST_ROOM];
    size_t length;
};

static int full(const struct line *line) {
    return line->length == MOST_ROOM;
}

static void put(struct line *line, const void *bytes, size_t length) {
    size_t room = MOST_ROOM - line->length, size = length < room ? length : room;
    if (size) memcpy(line->at + line->length, bytes, size);
    line->length += size;
}

static void put_word(struct line *line, const char *word) {
    put(line, word, strlen(word));
}

static void put_number(struct line *line, uint64_t n) {
    char digits[24];
    snprintf(digits, sizeof digits, "%llu", (unsigned long long)n);
    put_word(line, digits);
}

static void put_spelling(struct line *line, const struct midgebillon_tree *tree, uint32_t cell) {
    struct midgebillon_part spelling = midgebillon_tree_spelling(tree, cell);
    put(line, spelling.at, spelling.length);
}

/* The items of a variant or a list, in a block of exactly so many; with room for one less, nothing is written. */
static uint32_t *items_of(const struct midgebillon_tree *tree, uint32_t cell, size_t count) {
    uint32_t *items = exact_room(count * sizeof *items);
    if (count == 0) CHECK(midgebillon_tree_items(tree, cell, items, 0) == 0);
    else {
        memset(items, 0x5A, count * sizeof *items);
        CHECK(midgebillon_tree_items(tree, cell, items, count - 1) == count);
        for (size_t i = 0; i < count; i++) CHECK(items[i] == 0x5A5A5A5A);
        CHECK(midgebillon_tree_items(tree, cell, items, count) == count);
    }
    return items;
}

static void put_node(struct line *line, const struct midgebillon_tree *tree, uint32_t cell);

static void put_items(struct line *line, const struct midgebillon_tree *tree, uint32_t cell, int space_first) {
    size_t count = midgebillon_tree_count(tree, cell);
    uint32_t *items = items_of(tree, cell, count);
    for (size_t i = 0; i < count && !full(line); i++) {
        if (i > 0 || space_first) put_word(line, " ");
        CHECK(items[i] < cell);
        put_node(line, tree, items[i]);
    }
    give_back(items, count);
}

/* What is no node midgebillon_print writes as it does an absent one. */
static void put_node(struct line *line, const struct midgebillon_tree *tree, uint32_t cell) {
    switch (midgebillon_tree_form(tree, cell)) {
    case MIDGEBILLON_VARIANT_FORM:
        put_word(line, "(");
        put_number(line, midgebillon_tree_variant(tree, cell));
        put_items(line, tree, cell, 1);
        put_word(line, ")");
        break;
    case MIDGEBILLON_LIST_FORM:
        put_word(line, "[");
        put_items(line, tree, cell, 0);
        put_word(line, "]");
        break;
    case MIDGEBILLON_NAME_FORM: put_spelling(line, tree, cell); break;
    case MIDGEBILLON_NUMBER_FORM: put_number(line, midgebillon_tree_number(tree, cell)); break;
    case MIDGEBILLON_VARIABLE_FORM:
        put_word(line, "$");
        put_spelling(line, tree, cell);
        break;
    case MIDGEBILLON_DECLARED_FORM:
        put_word(line, "$");
        put_number(line, midgebillon_tree_depth(tree, cell));
        put_word(line, ".");
        put_number(line, midgebillon_tree_index(tree, cell));
        break;
    default: put_word(line, "-");
    }
}

/* Whether the cursor gives the line that midgebillon_print does for this cell. Of a line that is too long, 0. */
static int same_line(const struct midgebillon_tree *tree, uint32_t cell) {
    static struct line own;
    static uint8_t printed[MOST_ROOM];
    uint32_t answer[MIDGEBILLON_ANSWER] = {0, 0, 0, 0, 0, 1, cell};
    size_t length = midgebillon_print(tree->book, tree->book_length, tree->text, tree->text_length, tree->cells,
                                      tree->cells_length, answer, MIDGEBILLON_ANSWER, printed, MOST_ROOM);
    own.length = 0;
    put_word(&own, "value ");
    put_node(&own, tree, cell);
    put_word(&own, "\n");
    if (length == 0) return full(&own);
    return own.length == length && !memcmp(own.at, printed, length);
}

/* ---- Any cell */

static int within(struct midgebillon_part part, const uint8_t *bytes, size_t length) {
    return part.at >= bytes && part.length <= length && (size_t)(part.at - bytes) <= length - part.length;
}

/* What each function says of a cell must fit its form: of another form 0, and a part of no bytes. */
static void check_cell(const struct midgebillon_tree *tree, uint32_t cell) {
    uint32_t form = midgebillon_tree_form(tree, cell);
    struct midgebillon_part spelling = midgebillon_tree_spelling(tree, cell);
    size_t count = midgebillon_tree_count(tree, cell);
    int variable = form == MIDGEBILLON_VARIABLE_FORM;
    int items = form == MIDGEBILLON_VARIANT_FORM || form == MIDGEBILLON_LIST_FORM;
    CHECK(form == 0 || (MIDGEBILLON_VARIANT_FORM <= form && form <= MIDGEBILLON_DECLARED_FORM));
    CHECK(form == MIDGEBILLON_VARIANT_FORM || midgebillon_tree_variant(tree, cell) == 0);
    CHECK(form == MIDGEBILLON_NUMBER_FORM || midgebillon_tree_number(tree, cell) == 0);
    CHECK(variable || (midgebillon_tree_name(tree, cell) == 0 && midgebillon_tree_kind(tree, cell) == 0));
    CHECK(form == MIDGEBILLON_DECLARED_FORM
          || (midgebillon_tree_depth(tree, cell) == 0 && midgebillon_tree_index(tree, cell) == 0));
    CHECK(items ? count < cell : count == 0);
    CHECK(variable ? within(spelling, tree->book, tree->book_length) : within(spelling, tree->text, tree->text_length));
    CHECK(variable || form == MIDGEBILLON_NAME_FORM || spelling.length == 0);
    give_back(items_of(tree, cell, count), count);
}

/* Cells of every number about the list's end and at the ends of their type. */
static void check_ends(const struct midgebillon_tree *tree) {
    uint32_t cells = (uint32_t)(tree->cells_length / MIDGEBILLON_CELL_SIZE);
    const uint32_t third = UINT32_MAX / MIDGEBILLON_CELL_SIZE; /* where three times a number no longer fits */
    const uint32_t outside[] = {0, cells + 1, cells + 2, third, third + 1, third + 2, UINT32_MAX - 1, UINT32_MAX};
    for (size_t i = 0; i < sizeof outside / sizeof *outside; i++) {
        CHECK(midgebillon_tree_form(tree, outside[i]) == 0);
        check_cell(tree, outside[i]);
    }
}

/* ---- Readings */

/* Each cell of a reading, the value's too, and each parse's. */
static void check_reading(struct rule rule) {
    static uint32_t cells[MIDGEBILLON_CELLS], parses[MIDGEBILLON_PARSES];
    uint32_t answer[MIDGEBILLON_ANSWER], made = 0;
    memset(cells, 0, sizeof cells);
    midgebillon_read(rule.book.at, rule.book.length, rule.text.at, rule.text.length, rule.start, rule.allowance, cells,
                     MIDGEBILLON_CELLS, parses, MIDGEBILLON_PARSES, answer, MIDGEBILLON_ANSWER);
    while (made < MIDGEBILLON_CELLS / MIDGEBILLON_CELL_SIZE && cells[made * MIDGEBILLON_CELL_SIZE]) made++;
    struct midgebillon_tree tree = tree_of(rule.book, rule.text, cells, (size_t)made * MIDGEBILLON_CELL_SIZE);
    CHECK(answer[MIDGEBILLON_VALUE] <= made);
    CHECK((midgebillon_tree_form(&tree, answer[MIDGEBILLON_VALUE]) != 0) == (answer[MIDGEBILLON_REFUSAL] == 0));
    for (uint32_t i = 0; i < answer[MIDGEBILLON_COUNT]; i++)
        CHECK(midgebillon_tree_form(&tree, parses[i * MIDGEBILLON_PARSE_SIZE + MIDGEBILLON_CELL]) != 0);
    for (uint32_t cell = 1; cell <= made; cell++) {
        check_cell(&tree, cell);
        CHECK(same_line(&tree, cell));
    }
    check_ends(&tree);
    free_tree(tree);
}

/* ---- Cells that no reading makes */

/* a cell's second or third number: often of a cell before, else of this one, of one behind or of none */
static uint32_t some_number(uint32_t cell) {
    uint32_t way = up_to(11);
    return way == 0 ? drawn() : way <= 2 ? cell + up_to(3) : up_to(cell);
}

/* Identifiers are in the text: of one that is partly beyond it midgebillon_print writes as much as there is, where the
 * cursor gives none (check_plain). */
static void fill_by_chance(uint32_t *cells, uint32_t count, size_t text_length) {
    for (uint32_t cell = 1; cell <= count; cell++, cells += MIDGEBILLON_CELL_SIZE) {
        static const uint32_t forms[] = {0, 1, 2, 2, 2, 2, 3, 3, 4, 5, 6, 7, 8, 8, 9, 10, UINT32_MAX};
        cells[0] = forms[up_to(sizeof forms / sizeof *forms - 1)];
        cells[1] = some_number(cell);
        cells[2] = some_number(cell);
        if (cells[0] == MIDGEBILLON_NAME_FORM) {
            cells[1] = up_to((uint32_t)text_length);
            cells[2] = up_to((uint32_t)text_length - cells[1]);
        }
    }
}

/* Whether the book of a case is one that a line can be printed by. */
static int accepted(const struct known *known) {
    uint32_t refusal = known->answer[MIDGEBILLON_REFUSAL];
    return refusal == 0 || refusal > MIDGEBILLON_BYTES_LEFT_OVER;
}

static void check_by_chance(const struct known *known) {
    enum { MOST = 40 };
    struct rule rule = known->rule;
    uint32_t cells[MOST * MIDGEBILLON_CELL_SIZE], count = up_to(MOST - 1), cut = up_to(2);
    fill_by_chance(cells, MOST, rule.text.length);
    struct midgebillon_tree tree = tree_of(rule.book, rule.text, cells, (size_t)count * MIDGEBILLON_CELL_SIZE + cut);
    for (uint32_t cell = 1; cell <= count; cell++) {
        check_cell(&tree, cell);
        if (accepted(known)) CHECK(same_line(&tree, cell));
    }
    check_ends(&tree);
    free_tree(tree);
}

static const struct bytes none;

/* Chains that go round or forward end where their numbers don't fall. */
static void check_cycles(void) {
    static const uint32_t cells[] = {
        MIDGEBILLON_EMPTY_FORM,   0, 0, /* 1 */
        MIDGEBILLON_CHAIN_FORM,   2, 1, /* 2: its own chain */
        MIDGEBILLON_CHAIN_FORM,   4, 2, /* 3 and 4: each the other's */
        MIDGEBILLON_CHAIN_FORM,   3, 9, /* 4, with an item that comes later */
        MIDGEBILLON_VARIANT_FORM, 7, 2, /* 5 */
        MIDGEBILLON_VARIANT_FORM, 7, 4, /* 6 */
        MIDGEBILLON_LIST_FORM,    7, 0, /* 7: of itself */
        MIDGEBILLON_LIST_FORM,    9, 0, /* 8: of a chain that comes later */
        MIDGEBILLON_CHAIN_FORM,   1, 9  /* 9: its own item */
    };
    uint32_t items[2] = {77, 77};
    struct midgebillon_tree tree = tree_of(none, none, cells, sizeof cells / sizeof *cells);
    CHECK(midgebillon_tree_count(&tree, 5) == 1);
    CHECK(midgebillon_tree_items(&tree, 5, items, 2) == 1 && items[0] == 1 && items[1] == 77);
    CHECK(midgebillon_tree_count(&tree, 6) == 2);
    CHECK(midgebillon_tree_items(&tree, 6, items, 2) == 2 && items[0] == 2 && items[1] == 0);
    CHECK(midgebillon_tree_count(&tree, 7) == 0 && midgebillon_tree_count(&tree, 8) == 0);
    for (uint32_t cell = 1; cell <= 9; cell++) check_cell(&tree, cell);
    check_ends(&tree);
    free_tree(tree);
}

/* the longest chain that fits, of items whose numbers tell their order */
static void check_long_chain(void) {
    enum { CELLS = MIDGEBILLON_CELLS / MIDGEBILLON_CELL_SIZE };
    static uint32_t cells[MIDGEBILLON_CELLS] = {MIDGEBILLON_EMPTY_FORM};
    for (uint32_t cell = 2; cell <= CELLS; cell++) {
        uint32_t *at = cells + (cell - 1) * MIDGEBILLON_CELL_SIZE;
        at[0] = cell < CELLS ? MIDGEBILLON_CHAIN_FORM : MIDGEBILLON_LIST_FORM;
        at[1] = cell - 1;
        at[2] = cell < CELLS ? cell - 1 : 0;
    }
    struct midgebillon_tree tree = tree_of(none, none, cells, MIDGEBILLON_CELLS);
    CHECK(midgebillon_tree_count(&tree, CELLS) == CELLS - 2);
    uint32_t *items = items_of(&tree, CELLS, CELLS - 2);
    for (uint32_t i = 0; i < CELLS - 2; i++) CHECK(items[i] == i + 1);
    give_back(items, CELLS - 2);
    free_tree(tree);
}

static int spelled(struct midgebillon_part part, const char *word) {
    return part.length == strlen(word) && !memcmp(part.at, word, part.length);
}

/* Numbers, and identifiers at the text's end and beyond it. */
static void check_plain(void) {
    static const uint32_t cells[] = {
        MIDGEBILLON_NUMBER_FORM, 1, 2,
        MIDGEBILLON_NUMBER_FORM, UINT32_MAX, UINT32_MAX,
        MIDGEBILLON_NAME_FORM, 2, 3,
        MIDGEBILLON_NAME_FORM, 2, 4,          /* a byte too long */
        MIDGEBILLON_NAME_FORM, 5, 1,          /* begins at the end */
        MIDGEBILLON_NAME_FORM, 2, UINT32_MAX, /* a sum that could wrap */
        MIDGEBILLON_NAME_FORM, UINT32_MAX, 3,
        MIDGEBILLON_NAME_FORM, 5, 0
    };
    uint8_t word[] = "a net";
    struct bytes text = {word, 5};
    struct midgebillon_tree tree = tree_of(none, text, cells, sizeof cells / sizeof *cells);
    CHECK(midgebillon_tree_number(&tree, 1) == ((uint64_t)1 << 32) + 2);
    CHECK(midgebillon_tree_number(&tree, 2) == UINT64_MAX);
    CHECK(spelled(midgebillon_tree_spelling(&tree, 3), "net"));
    for (uint32_t cell = 4; cell <= 8; cell++) CHECK(midgebillon_tree_spelling(&tree, cell).length == 0);
    for (uint32_t cell = 1; cell <= 8; cell++) check_cell(&tree, cell);
    free_tree(tree);
}

/* declared variables, made by hand */
static void check_declared(void) {
    static const uint32_t cells[] = {MIDGEBILLON_DECLARED_FORM, 0, 0, MIDGEBILLON_DECLARED_FORM, UINT32_MAX, 7};
    struct midgebillon_tree tree = tree_of(none, none, cells, sizeof cells / sizeof *cells);
    CHECK(midgebillon_tree_form(&tree, 1) == MIDGEBILLON_DECLARED_FORM);
    CHECK(midgebillon_tree_depth(&tree, 1) == 0 && midgebillon_tree_index(&tree, 1) == 0);
    CHECK(midgebillon_tree_depth(&tree, 2) == UINT32_MAX && midgebillon_tree_index(&tree, 2) == 7);
    for (uint32_t cell = 0; cell <= 3; cell++) check_cell(&tree, cell);
    free_tree(tree);
}

/* A text that declares names in two openings, and uses the second of the outer one in the inner. */
static void check_binder(void) {
    static uint32_t cells[MIDGEBILLON_CELLS], parses[MIDGEBILLON_PARSES];
    uint32_t answer[MIDGEBILLON_ANSWER], found = 0;
    /* the word `k`; a binder of nonterminal 1; that is a variable, or a binder in parentheses */
    uint8_t book[] = "\1\0\1k\0\2\3\1\0\2\3\377\3\1\1\377\3\1\1\377\3\1\3"
                     "\5\16\1[]\4\0\0\0\0(\0\0\10\0\0\0\0)\0\0";
    uint8_t text[] = "[k a, k b] ([k c] b)";
    struct rule rule = {{book, sizeof book - 1}, {text, sizeof text - 1}, 0, MIDGEBILLON_ALLOWANCE};
    check_reading(rule);
    midgebillon_read(rule.book.at, rule.book.length, rule.text.at, rule.text.length, rule.start, rule.allowance, cells,
                     MIDGEBILLON_CELLS, parses, MIDGEBILLON_PARSES, answer, MIDGEBILLON_ANSWER);
    CHECK(answer[MIDGEBILLON_REFUSAL] == 0);
    struct midgebillon_tree tree = tree_of(rule.book, rule.text, cells, MIDGEBILLON_CELLS);
    for (uint32_t cell = 1; cell <= answer[MIDGEBILLON_VALUE]; cell++) {
        if (midgebillon_tree_form(&tree, cell) != MIDGEBILLON_DECLARED_FORM) continue;
        CHECK(midgebillon_tree_depth(&tree, cell) == 1 && midgebillon_tree_index(&tree, cell) == 1);
        found++;
    }
    CHECK(found == 1);
    free_tree(tree);
}

/* ---- Books */

/* a variable of each name number that matters */
static const uint32_t variables[] = {
    MIDGEBILLON_VARIABLE_FORM, 0, 5,
    MIDGEBILLON_VARIABLE_FORM, 1, 6,
    MIDGEBILLON_VARIABLE_FORM, 2, 7,
    MIDGEBILLON_VARIABLE_FORM, 255, 0,
    MIDGEBILLON_VARIABLE_FORM, UINT32_MAX, UINT32_MAX
};

enum { VARIABLES = sizeof variables / sizeof *variables / MIDGEBILLON_CELL_SIZE };

/* Two words and two names: of each beginning of the book, the names that end in it are spelled. */
static void check_names(void) {
    uint8_t bytes[] = "\2\1\2if\0\4else\2\5\5price\6\3net";
    const size_t price_ends = 19, net_ends = 24;
    for (size_t length = 0; length <= net_ends; length++) {
        struct bytes book = {bytes, length};
        struct midgebillon_tree tree = tree_of(book, none, variables, sizeof variables / sizeof *variables);
        CHECK(spelled(midgebillon_tree_spelling(&tree, 1), length >= price_ends ? "price" : ""));
        CHECK(spelled(midgebillon_tree_spelling(&tree, 2), length >= net_ends ? "net" : ""));
        for (uint32_t cell = 3; cell <= VARIABLES; cell++) CHECK(midgebillon_tree_spelling(&tree, cell).length == 0);
        CHECK(midgebillon_tree_name(&tree, 2) == 1 && midgebillon_tree_kind(&tree, 2) == 6);
        CHECK(midgebillon_tree_name(&tree, 5) == UINT32_MAX && midgebillon_tree_kind(&tree, 5) == UINT32_MAX);
        for (uint32_t cell = 1; cell <= VARIABLES; cell++) check_cell(&tree, cell);
        free_tree(tree);
    }
}

static void check_damaged_book(struct bytes whole) {
    struct bytes book = damaged(whole);
    struct midgebillon_tree tree = tree_of(book, none, variables, sizeof variables / sizeof *variables);
    for (uint32_t cell = 1; cell <= VARIABLES; cell++) check_cell(&tree, cell);
    free_tree(tree);
    free(book.at);
}

/* ---- All */

int main(int argc, char **argv) {
    if (argc != 2) {
        puts("usage: tree CASES");
        return 2;
    }
    struct cases cases = cases_of(argv[1]);
    uint32_t last = (uint32_t)cases.count - 1;
    for (size_t i = 0; i < cases.count; i++) {
        snprintf(trying, sizeof trying, "case %zu", i + 1);
        check_reading(cases.at[i].rule);
    }
    snprintf(trying, sizeof trying, "made by hand");
    check_cycles();
    check_long_chain();
    check_plain();
    check_declared();
    check_binder();
    check_names();
    for (int i = 0; i < RANDOM_CELLS; i++) {
        snprintf(trying, sizeof trying, "cells by chance, %d", i);
        check_by_chance(&cases.at[up_to(last)]);
    }
    for (int i = 0; i < RANDOM_BOOKS; i++) {
        snprintf(trying, sizeof trying, "book by chance, %d", i);
        check_damaged_book(cases.at[up_to(last)].rule.book);
    }
    free_cases(cases);
    return counted("tree");
}
