/* The margin rule reader, for C: reads a rule's text by a rule book, and prints the answer as a line. "Document 01" is
 * the specification, "The margin rule reader".
 *
 * The library is proved: what each function says below holds for every book, text and list (crates/midgebillon/specs
 * has it as definitions). `python3 tools/library.py` proves it and writes it, for x86-64, with this header; `rt lib` in
 * crates/midgebillon_c writes the static library alone. It needs nothing but the C library's memory functions.
 *
 * What the caller owes:
 * - a list is passed as a pointer and a number of elements. The pointer is never null, also where the number is 0, and
 *   is aligned as its type asks; so many elements stand behind it and can be read, or written where the pointer is not
 *   to const;
 * - a list that is written (cells, parses, answer of midgebillon_read and midgebillon_read_in, and index, store, rows
 *   of the latter; out of the other two) overlaps no other list of the same call;
 * - stack: 4 MiB for a call; 3 MiB for one of midgebillon_read_in. midgebillon_read has half a megabyte of working
 *   memory there, and a book can be made whose calls nest 200 levels deep with up to 12 kilobytes each; a thread with
 *   less stack can crash. These sizes are counted from the compiled code and measured, not proved.
 * No other value is wrong to pass: the functions refuse what they can't use, and never fail, call back, allocate or
 * loop for ever.
 *
 * No function keeps anything between calls, so any number of threads can call them at once, each with its own lists. */
#ifndef MIDGEBILLON_H
#define MIDGEBILLON_H

#include <stddef.h>
#include <stdint.h>

#ifdef __cplusplus
extern "C" {
#endif

/* the version of the library that this header describes; CHANGELOG.md tells what each version has */
#define MIDGEBILLON_VERSION "0.1.0"

/* how many numbers the lists must have */
enum {
    MIDGEBILLON_CELLS = 12288, /* 4,096 cells of three numbers */
    MIDGEBILLON_PARSES = 256,  /* 64 parses of four numbers */
    MIDGEBILLON_ANSWER = 7
};

/* the greatest allowance: the units of work that a call may take */
enum { MIDGEBILLON_ALLOWANCE = 1000000 };

/* The seven numbers of an answer, by their places in the list. Place, kind and argument are 0 unless the refusal has
 * them. */
enum {
    MIDGEBILLON_REFUSAL,  /* 0: the text has a value. Else why it has none, see below */
    MIDGEBILLON_PLACE,    /* refusals 3 to 8: a place of the book; 10, 11 and 30: of the text; in bytes, from 0 */
    MIDGEBILLON_KIND,     /* refusal 30: the furthest error, 1 to 12, see below */
    MIDGEBILLON_ARGUMENT, /* refusal 30: what that error says besides */
    MIDGEBILLON_WORK,     /* the units of work that the run took; 0 in refusals 1 to 11, the allowance in 20 */
    MIDGEBILLON_COUNT,    /* how many parses there are: on success, and in refusals 31 and 32 */
    MIDGEBILLON_VALUE     /* the number of the value's cell, from 1; 0 in a refusal */
};

/* Refusals, in the order in which they are looked for. 1 to 11 leave both lists as they are. */
enum {
    MIDGEBILLON_SHORT_LISTS = 1,      /* cells has under 12,288 numbers, parses under 256, or lent memory too few */
    MIDGEBILLON_BAD_ALLOWANCE = 2,    /* the allowance is 0 or above 1,000,000 */
    MIDGEBILLON_BOOK_ENDS_EARLY = 3,  /* the book ends too early */
    MIDGEBILLON_BAD_COUNT = 4,        /* a section's count is out of its limits or not its sum */
    MIDGEBILLON_BAD_SPELLING = 5,     /* a spelling is not 1 to 15 bytes or no identifier */
    MIDGEBILLON_BAD_FIELD = 6,        /* another field of the book is out of range */
    MIDGEBILLON_BAD_PASSING = 7,      /* a passing variant is not one step of kind 8 */
    MIDGEBILLON_BYTES_LEFT_OVER = 8,  /* bytes are left over behind the book */
    MIDGEBILLON_UNKNOWN_START = 9,    /* the book has no such start */
    MIDGEBILLON_LONG_TEXT = 10,       /* the text has more than 4,096 bytes */
    MIDGEBILLON_HIGH_BYTE = 11,       /* a byte of the text is 128 or more */
    MIDGEBILLON_NO_UNIT = 20,         /* a unit beyond the allowance */
    MIDGEBILLON_TOO_DEEP = 21,        /* the run nests beyond 200 */
    MIDGEBILLON_TOO_MANY_PARSES = 22, /* a set would have a 65th parse */
    MIDGEBILLON_TOO_MANY_CELLS = 23,  /* a 4,097th cell would be made */
    MIDGEBILLON_TOO_MANY_NAMES = 41,  /* a 65th declared name would be open: a limit of the run as 20 to 23 are */
    MIDGEBILLON_NO_PARSE = 30,        /* no parse: place, kind and argument say why */
    MIDGEBILLON_NONE_WHOLE = 31,      /* parses, and none reaches the end of the text */
    MIDGEBILLON_DIFFERENT_VALUES = 32 /* parses that reach the end have different values */
};

/* kinds of errors in refusal 30; in brackets what the argument is, which else is 0 */
enum {
    MIDGEBILLON_CHARACTER_WANTED = 1,    /* a character was wanted (its code) */
    MIDGEBILLON_WORD_WANTED = 2,         /* a word was wanted (its number) */
    MIDGEBILLON_IDENTIFIER_WANTED = 3,   /* an identifier was wanted */
    MIDGEBILLON_TEXT_ENDED = 4,          /* the text ended before a token */
    MIDGEBILLON_VARIABLE_FOUND = 5,      /* a variable was found */
    MIDGEBILLON_RESERVED_FOUND = 6,      /* a reserved word was found */
    MIDGEBILLON_UNKNOWN_NAME = 7,        /* a name was unknown */
    MIDGEBILLON_WRONG_KIND = 8,          /* another kind of variable was wanted (that kind) */
    MIDGEBILLON_DIGITS_WANTED = 9,       /* digits were wanted */
    MIDGEBILLON_TOO_LARGE = 10,          /* a number was too large */
    MIDGEBILLON_NONTERMINAL_WANTED = 11, /* a nonterminal was wanted (its number, or MIDGEBILLON_DECLARED_NAME) */
    MIDGEBILLON_MORE_WANTED = 12         /* more was wanted (the nonterminal whose variant it was) */
};

/* The argument of error 11 where a declared name was wanted: nonterminals are numbered 0 to 31. No answer has it, since
 * where a declared name may stand something else may, too, and the error is then 12. */
enum { MIDGEBILLON_DECLARED_NAME = 32 };

/* how many numbers a cell and a parse have */
enum { MIDGEBILLON_CELL_SIZE = 3, MIDGEBILLON_PARSE_SIZE = 4 };

/* Forms of cells, which are a cell's first number. Behind each are its second and third, where they are not 0; chains
 * and items are numbers of cells, always of cells before. */
enum {
    MIDGEBILLON_EMPTY_FORM = 1,    /* the empty chain */
    MIDGEBILLON_CHAIN_FORM = 2,    /* a chain with one item more: the chain before it, the item */
    MIDGEBILLON_VARIANT_FORM = 3,  /* a variant: its number in the book, the chain of its items */
    MIDGEBILLON_NAME_FORM = 4,     /* an identifier: its place in the text, its length */
    MIDGEBILLON_NUMBER_FORM = 5,   /* a number: its high 32 bits, its low 32 bits */
    MIDGEBILLON_VARIABLE_FORM = 6, /* a variable: its name's number in the book, the name's kind */
    MIDGEBILLON_ABSENT_FORM = 7,   /* an optional that is absent, or the names of a binder whose opening is */
    MIDGEBILLON_LIST_FORM = 8,     /* a list: the chain of its values */
    MIDGEBILLON_DECLARED_FORM = 9  /* a declared variable: its binder's depth outwards, its index within that binder */
};

/* the four numbers of a parse, by their places in it */
enum {
    MIDGEBILLON_REST,          /* where it ends in the text */
    MIDGEBILLON_LEVEL,         /* its level */
    MIDGEBILLON_ASSOCIATIVITY, /* its associativity, see below */
    MIDGEBILLON_CELL           /* the number of its value's cell */
};

/* associativities */
enum { MIDGEBILLON_LEFT, MIDGEBILLON_RIGHT, MIDGEBILLON_NONE, MIDGEBILLON_BOTH };

/* Reads `text` by `book`, from the nonterminal number `start`, with at most `allowance` units of work.
 *
 * The first seven numbers of `answer` become the answer; those behind them stay. Where `answer_length` is under seven,
 * nothing at all is touched.
 *
 * An answer other than 20 under an allowance from 1 to 1,000,000 is the same under each larger one up to there; so are
 * both lists, if they held the same before.
 *
 * On success and in refusals 31 and 32 the lists hold the result: in `parses` four numbers for each parse, which are
 * its rest (where it ends in the text), level, associativity (0 Left, 1 Right, 2 None, 3 Both) and value cell; in
 * `cells` three numbers for each cell, cell n at 3n - 3, whose first says what it is: 1 empty chain; 2 chain, item;
 * 3 variant, chain; 4 name's place in the text, length; 5 high half, low half of a number; 6 name's number in the book,
 * kind; 7 absent; 8 list of a chain; 9 depth, index of a declared variable. A chain, an item and a value are numbers of
 * cells. What is not used of the first 12,288 and 256 numbers is 0; in refusals 20 to 23, 41 and 30 all of them are.
 * Numbers beyond those are never touched. */
void midgebillon_read(const uint8_t *book, size_t book_length,
                      const uint8_t *text, size_t text_length,
                      uint32_t start, uint32_t allowance,
                      uint32_t *cells, size_t cells_length,
                      uint32_t *parses, size_t parses_length,
                      uint32_t *answer, size_t answer_length);

/* how many numbers the working memory of midgebillon_read_in must have */
enum {
    MIDGEBILLON_INDEX = 1091,  /* of type size_t */
    MIDGEBILLON_STORE = 17408, /* of type uint32_t */
    MIDGEBILLON_ROWS = 105525  /* of type uint32_t */
};

/* midgebillon_read with working memory that is lent, and not on the stack: `index`, `store` and `rows`, 500,460 bytes
 * in three lists, each aligned as its type asks and overlapping no other list. Whatever the memory held, the answer and
 * both lists are those of midgebillon_read. Nothing is known of the memory afterwards, also not of what lies behind the
 * numbers that are needed; the next call may be lent it as it is.
 *
 * Where one of the three has fewer numbers than said above, the answer is refusal 1, place 0, and `cells` and `parses`
 * stay as they are. Where `answer_length` is under seven, nothing at all is touched, the working memory included. */
void midgebillon_read_in(const uint8_t *book, size_t book_length,
                         const uint8_t *text, size_t text_length,
                         uint32_t start, uint32_t allowance,
                         uint32_t *cells, size_t cells_length,
                         uint32_t *parses, size_t parses_length,
                         size_t *index, size_t index_length,
                         uint32_t *store, size_t store_length,
                         uint32_t *rows, size_t rows_length,
                         uint32_t *answer, size_t answer_length);

/* Writes the line of an answer to the front of `out`, with the line feed that ends it and no zero byte behind, and
 * gives its length: "value " and the value, as `value (1 (0 1) (0 2))`, or
 * `refused N place P kind K argument A line L column C`. `book`, `text`, `cells` and `answer` are those of the call of
 * midgebillon_read or midgebillon_read_in.
 *
 * In refusals 11 and 30 line and column are those of the place, from 1; else both are 0. A tab moves the column to the
 * next of 9, 17, 25 and so on, and every other byte, a carriage return too, moves it by one; behind a line feed it is 1
 * again.
 *
 * 0, with `out` untouched, where the line has more than `out_length` bytes, or the numbers are no answer: fewer than
 * seven; a refusal that is not in the table above; or a value (refusal 0) whose book is not accepted, or whose cell is
 * 0, above 4,096 or not in `cells`. No line has length 0.
 *
 * A refusal's line has less than 128 bytes. A value's can be far longer than its text, since a cell is printed wherever
 * it is used: try with more room up to a limit of your own. A call takes time in proportion to the room, the text and
 * the cells, however long the line. */
size_t midgebillon_print(const uint8_t *book, size_t book_length,
                         const uint8_t *text, size_t text_length,
                         const uint32_t *cells, size_t cells_length,
                         const uint32_t *answer, size_t answer_length,
                         uint8_t *out, size_t out_length);

/* an error in a list: its place, kind and argument, as in refusal 30 */
enum { MIDGEBILLON_ERROR = 3 };

/* why a list of errors has no furthest */
enum {
    MIDGEBILLON_NO_ROOM = 1,    /* `out_length` is under three */
    MIDGEBILLON_NO_ERRORS = 60, /* the list is empty */
    MIDGEBILLON_UNEVEN = 61     /* its length is not three times a number */
};

/* Joins the errors of a list, three numbers each, `errors_length` numbers in all: gives 0, and the first three numbers
 * of `out` become the furthest of them; of those at that place the one of least kind, and of those of that kind the one
 * of least argument. In whatever order the errors stand, and however often, it is the same one; and errors that were
 * joined before can be joined again, with more. Numbers of `out` behind the third stay.
 *
 * Where there is no such error, one of the numbers above, and `out` is untouched. */
uint32_t midgebillon_furthest(const uint32_t *errors, size_t errors_length,
                              uint32_t *out, size_t out_length);

#ifdef __cplusplus
}
#endif

#endif
