/* tree BOOK TEXT: reads the rule in the file TEXT by the book in the file BOOK, and prints its value as a tree, one
 * node a line, each two spaces further in than what it is an item of; or the line of a refusal. Exit status: 0 a value,
 * 1 a refusal, 2 wrong usage, 3 no memory, or a tree that has more than MOST_LINES nodes or can't be written. */
#include "file.h"
#include "midgebillon_tree.h"

#include <inttypes.h>
#include <stdio.h>
#include <stdlib.h>

/* a tree can have far more nodes than cells, since equal cells are shared */
enum { MOST_LINES = 10000 };

enum { REFUSAL_ROOM = 128, MOST_ITEMS = MIDGEBILLON_CELLS / MIDGEBILLON_CELL_SIZE };

/* a node that is still to be printed */
struct node {
    uint32_t cell, depth;
};

/* The nodes still to be printed, the next one last. They stand here and not in calls that nest: a tree can be deep. */
struct nodes {
    struct node *at;
    size_t length, size;
};

static void push(struct nodes *nodes, uint32_t cell, uint32_t depth) {
    if (nodes->length == nodes->size) {
        nodes->size = 2 * nodes->size + 64;
        nodes->at = room_for(nodes->at, nodes->size * sizeof *nodes->at);
    }
    nodes->at[nodes->length++] = (struct node){cell, depth};
}

static void push_items(struct nodes *nodes, const struct midgebillon_tree *tree, struct node node) {
    static uint32_t items[MOST_ITEMS];
    size_t count = midgebillon_tree_items(tree, node.cell, items, MOST_ITEMS);
    while (count > 0) push(nodes, items[--count], node.depth + 1);
}

static void print_node(const struct midgebillon_tree *tree, struct node node) {
    struct midgebillon_part spelling = midgebillon_tree_spelling(tree, node.cell);
    uint32_t kind = midgebillon_tree_kind(tree, node.cell);
    printf("%*s", (int)(2 * node.depth), "");
    switch (midgebillon_tree_form(tree, node.cell)) {
    case MIDGEBILLON_VARIANT_FORM: printf("variant %" PRIu32, midgebillon_tree_variant(tree, node.cell)); break;
    case MIDGEBILLON_LIST_FORM: printf("list"); break;
    case MIDGEBILLON_NAME_FORM: printf("identifier "); break;
    case MIDGEBILLON_NUMBER_FORM: printf("number %" PRIu64, midgebillon_tree_number(tree, node.cell)); break;
    case MIDGEBILLON_VARIABLE_FORM: printf("variable of kind %" PRIu32 " ", kind); break;
    case MIDGEBILLON_DECLARED_FORM:
        printf("declared variable %" PRIu32 ".%" PRIu32, midgebillon_tree_depth(tree, node.cell),
               midgebillon_tree_index(tree, node.cell));
        break;
    case MIDGEBILLON_ABSENT_FORM: printf("absent"); break;
    }
    fwrite(spelling.at, 1, spelling.length, stdout);
    putchar('\n');
}

/* Whether the whole tree was printed. */
static int print_tree(const struct midgebillon_tree *tree, uint32_t root) {
    struct nodes nodes = {NULL, 0, 0};
    int lines = 0;
    push(&nodes, root, 0);
    for (; nodes.length > 0 && lines < MOST_LINES; lines++) {
        struct node node = nodes.at[--nodes.length];
        print_node(tree, node);
        push_items(&nodes, tree, node);
    }
    free(nodes.at);
    return nodes.length == 0;
}

/* What an answer's value is, or why there is none; whether that was printed whole. */
static int print_answer(const struct midgebillon_tree *tree, const uint32_t *answer) {
    uint8_t line[REFUSAL_ROOM];
    size_t length;
    if (!answer[MIDGEBILLON_REFUSAL]) return print_tree(tree, answer[MIDGEBILLON_VALUE]);
    length = midgebillon_print(tree->book, tree->book_length, tree->text, tree->text_length, tree->cells,
                               tree->cells_length, answer, MIDGEBILLON_ANSWER, line, REFUSAL_ROOM);
    fwrite(line, 1, length, stdout);
    return length != 0;
}

int main(int argc, char **argv) {
    static uint32_t cells[MIDGEBILLON_CELLS], parses[MIDGEBILLON_PARSES], answer[MIDGEBILLON_ANSWER];
    if (argc != 3) {
        fputs("usage: tree BOOK TEXT\n", stderr);
        return 2;
    }
    struct bytes book = load(argv[1]), text = load(argv[2]);
    midgebillon_read(book.at, book.length, text.at, text.length, 0, MIDGEBILLON_ALLOWANCE, cells, MIDGEBILLON_CELLS,
                     parses, MIDGEBILLON_PARSES, answer, MIDGEBILLON_ANSWER);
    struct midgebillon_tree tree = {book.at, book.length, text.at, text.length, cells, MIDGEBILLON_CELLS};
    int whole = print_answer(&tree, answer);
    if (fflush(stdout) || ferror(stdout)) {
        fputs("the tree can't be written\n", stderr);
        return 3;
    }
    if (!whole) {
        fputs("the tree has more lines\n", stderr);
        return 3;
    }
    free(text.at);
    free(book.at);
    return answer[MIDGEBILLON_REFUSAL] ? 1 : 0;
}
