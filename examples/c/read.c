/* read BOOK TEXT: reads the rule in the file TEXT by the book in the file BOOK, and prints the line of the answer.
 * Exit status: 0 a value, 1 a refusal, 2 wrong usage, 3 no memory, or a line that is too long or can't be written. */
#include "file.h"
#include "midgebillon.h"

#include <stdio.h>
#include <stdlib.h>

/* a value's line has no bound of its own that a program could allocate */
enum { SHORTEST_ROOM = 256, MOST_ROOM = 1 << 24 };

/* The line of an answer, in as much room as it takes; of length 0 where that is too much. */
static struct bytes line_of(struct bytes book, struct bytes text, const uint32_t *cells, const uint32_t *answer) {
    struct bytes line = {NULL, 0};
    for (size_t size = SHORTEST_ROOM; !line.length && size <= MOST_ROOM; size *= 2) {
        line.at = room_for(line.at, size);
        line.length = midgebillon_print(book.at, book.length, text.at, text.length, cells, MIDGEBILLON_CELLS, answer,
                                        MIDGEBILLON_ANSWER, line.at, size);
    }
    return line;
}

int main(int argc, char **argv) {
    static uint32_t cells[MIDGEBILLON_CELLS], parses[MIDGEBILLON_PARSES], answer[MIDGEBILLON_ANSWER];
    if (argc != 3) {
        fputs("usage: read BOOK TEXT\n", stderr);
        return 2;
    }
    struct bytes book = load(argv[1]), text = load(argv[2]);
    midgebillon_read(book.at, book.length, text.at, text.length, 0, MIDGEBILLON_ALLOWANCE, cells, MIDGEBILLON_CELLS,
                     parses, MIDGEBILLON_PARSES, answer, MIDGEBILLON_ANSWER);
    struct bytes line = line_of(book, text, cells, answer);
    if (!line.length) {
        fputs("the line is too long\n", stderr);
        return 3;
    }
    if (fwrite(line.at, 1, line.length, stdout) != line.length || fflush(stdout)) {
        fputs("the line can't be written\n", stderr);
        return 3;
    }
    free(line.at);
    free(text.at);
    free(book.at);
    return answer[MIDGEBILLON_REFUSAL] ? 1 : 0;
}
