/* furthest BOOK TEXT..: reads the rule in each file TEXT by the book in the file BOOK, all in the same working memory,
 * and prints the furthest error of those that have no parse. Exit status: 0 an error was printed, 1 there was none,
 * 2 wrong usage, 3 no memory, or the line can't be written. */
#include "file.h"
#include "midgebillon.h"

#include <stdio.h>
#include <stdlib.h>

/* Reads a rule. What an earlier call left in the working memory makes no difference. */
static void read_rule(struct bytes book, struct bytes text, uint32_t *answer) {
    static uint32_t cells[MIDGEBILLON_CELLS], parses[MIDGEBILLON_PARSES];
    static size_t index[MIDGEBILLON_INDEX];
    static uint32_t store[MIDGEBILLON_STORE], rows[MIDGEBILLON_ROWS];
    midgebillon_read_in(book.at, book.length, text.at, text.length, 0, MIDGEBILLON_ALLOWANCE,
                        cells, MIDGEBILLON_CELLS, parses, MIDGEBILLON_PARSES,
                        index, MIDGEBILLON_INDEX, store, MIDGEBILLON_STORE, rows, MIDGEBILLON_ROWS,
                        answer, MIDGEBILLON_ANSWER);
}

int main(int argc, char **argv) {
    uint32_t answer[MIDGEBILLON_ANSWER], furthest[MIDGEBILLON_ERROR] = {0};
    if (argc < 2) {
        fputs("usage: furthest BOOK TEXT..\n", stderr);
        return 2;
    }
    struct bytes book = load(argv[1]);
    uint32_t *errors = room_for(NULL, sizeof furthest * (size_t)argc);
    size_t length = 0;
    for (int i = 2; i < argc; i++) {
        struct bytes text = load(argv[i]);
        read_rule(book, text, answer);
        if (answer[MIDGEBILLON_REFUSAL] == MIDGEBILLON_NO_PARSE)
            for (int n = 0; n < MIDGEBILLON_ERROR; n++) errors[length++] = answer[MIDGEBILLON_PLACE + n];
        free(text.at);
    }
    uint32_t none = midgebillon_furthest(errors, length, furthest, MIDGEBILLON_ERROR);
    unsigned place = furthest[0], kind = furthest[1], argument = furthest[2];
    if (!none && (printf("place %u kind %u argument %u\n", place, kind, argument) < 0 || fflush(stdout))) {
        fputs("the line can't be written\n", stderr);
        return 3;
    }
    free(errors);
    free(book.at);
    return none ? 1 : 0;
}
