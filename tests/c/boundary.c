/* boundary BOOK CASES: calls the library's functions with lists of every length that matters, each between pages that
 * can't be touched (pages.h), and compares what must stay. BOOK is the example book; CASES has books and texts with
 * their answers. Exit status 0 if all is as include/midgebillon.h says. */
#include "pages.h"

enum {
    MOST_BOOK = 4096,
    MOST_TEXT = 8192,
    MOST_OUT = 1 << 16,
    SOME_MORE = 3,           /* how many elements a list is tried with beyond what it needs */
    RANDOM_CALLS = 6000,     /* of each of the three ways to make a book and a text */
    RANDOM_ALLOWANCE = 20000 /* the most, but for some calls: so that the whole takes seconds */
};

static const size_t number = sizeof(uint32_t);

static struct pages book, text, cells, parses, answer, out, errors;

static const uint32_t *answered(void) {
    return (const uint32_t *)(const void *)answer.list;
}

static void open_pages(void) {
    book = pages_for(MOST_BOOK);
    text = pages_for(MOST_TEXT);
    cells = pages_for((MIDGEBILLON_CELLS + SOME_MORE) * number);
    parses = pages_for((MIDGEBILLON_PARSES + SOME_MORE) * number);
    answer = pages_for((MIDGEBILLON_ANSWER + SOME_MORE) * number);
    out = pages_for(MOST_OUT);
    errors = pages_for(64 * number);
}

static void close_pages(void) {
    struct pages *all[] = {&book, &text, &cells, &parses, &answer, &out, &errors};
    for (size_t i = 0; i < sizeof all / sizeof *all; i++) free(all[i]->before);
}

static int is_refusal(uint32_t n) {
    return (MIDGEBILLON_SHORT_LISTS <= n && n <= MIDGEBILLON_HIGH_BYTE) ||
           (MIDGEBILLON_NO_UNIT <= n && n <= MIDGEBILLON_TOO_MANY_CELLS) ||
           (MIDGEBILLON_NO_PARSE <= n && n <= MIDGEBILLON_DIFFERENT_VALUES) || n == MIDGEBILLON_TOO_MANY_NAMES;
}

/* ---- midgebillon_read */

/* What a call of this answer may have written of cells and parses, and what it must. */
static void check_lists(uint32_t refusal) {
    int found = refusal == 0 || refusal == MIDGEBILLON_NONE_WHOLE || refusal == MIDGEBILLON_DIFFERENT_VALUES;
    if (refusal != 0 && refusal <= MIDGEBILLON_HIGH_BYTE) {
        CHECK(kept(&cells));
        CHECK(kept(&parses));
        return;
    }
    CHECK(kept_behind(&cells, MIDGEBILLON_CELLS * number));
    CHECK(kept_behind(&parses, MIDGEBILLON_PARSES * number));
    CHECK(found || zero(&cells, MIDGEBILLON_CELLS * number));
    CHECK(found || zero(&parses, MIDGEBILLON_PARSES * number));
}

/* A call with lists of these lengths, all at one side of their pages. */
static void read_with(struct rule rule, size_t cells_length, size_t parses_length, size_t answer_length,
                      enum side side) {
    lend_sealed(&book, rule.book.at, rule.book.length, side);
    lend_sealed(&text, rule.text.at, rule.text.length, side);
    uint32_t *lent_cells = lend(&cells, cells_length * number, side);
    uint32_t *lent_parses = lend(&parses, parses_length * number, side);
    uint32_t *lent_answer = lend(&answer, answer_length * number, side);
    filled(&cells);
    filled(&parses);
    filled(&answer);
    midgebillon_read(book.list, book.length, text.list, text.length, rule.start, rule.allowance, lent_cells,
                     cells_length, lent_parses, parses_length, lent_answer, answer_length);
    if (answer_length < MIDGEBILLON_ANSWER) {
        CHECK(kept(&cells) && kept(&parses) && kept(&answer));
        return;
    }
    CHECK(kept_behind(&answer, MIDGEBILLON_ANSWER * number));
    CHECK(answered()[MIDGEBILLON_REFUSAL] == 0 || is_refusal(answered()[MIDGEBILLON_REFUSAL]));
    check_lists(answered()[MIDGEBILLON_REFUSAL]);
}

static void read_rule(struct rule rule, enum side side) {
    read_with(rule, MIDGEBILLON_CELLS, MIDGEBILLON_PARSES, MIDGEBILLON_ANSWER, side);
}

static int answer_is(const uint32_t *wanted) {
    return !memcmp(answered(), wanted, MIDGEBILLON_ANSWER * number);
}

static int refused_at(uint32_t refusal, uint32_t place) {
    return answered()[MIDGEBILLON_REFUSAL] == refusal && answered()[MIDGEBILLON_PLACE] == place;
}

/* Too few numbers for the answer: nothing is touched. More than seven: the others stay. */
static void answers_of_all_lengths(struct rule rule, enum side side) {
    for (size_t length = 0; length <= MIDGEBILLON_ANSWER + SOME_MORE; length++)
        read_with(rule, MIDGEBILLON_CELLS, MIDGEBILLON_PARSES, length, side);
}

static void lists_about_their_sizes(struct rule rule, enum side side) {
    uint32_t wanted[MIDGEBILLON_ANSWER];
    read_rule(rule, side);
    memcpy(wanted, answered(), sizeof wanted);
    for (size_t c = MIDGEBILLON_CELLS - 1; c <= MIDGEBILLON_CELLS + 1; c++)
        for (size_t p = MIDGEBILLON_PARSES - 1; p <= MIDGEBILLON_PARSES + 1; p++) {
            int fits = c >= MIDGEBILLON_CELLS && p >= MIDGEBILLON_PARSES;
            read_with(rule, c, p, MIDGEBILLON_ANSWER, side);
            CHECK(fits ? answer_is(wanted) : refused_at(MIDGEBILLON_SHORT_LISTS, 0));
        }
    read_with(rule, 0, 0, MIDGEBILLON_ANSWER, side);
    CHECK(refused_at(MIDGEBILLON_SHORT_LISTS, 0));
}

static void empty_lists(struct rule rule, enum side side) {
    struct bytes none = {NULL, 0};
    struct rule no_book = rule, no_text = rule;
    no_book.book = none;
    no_text.text = none;
    read_rule(no_book, side);
    CHECK(refused_at(MIDGEBILLON_BOOK_ENDS_EARLY, 0));
    no_book.text = none;
    read_rule(no_book, side);
    CHECK(refused_at(MIDGEBILLON_BOOK_ENDS_EARLY, 0));
    read_rule(no_text, side);
    CHECK(refused_at(MIDGEBILLON_NO_PARSE, 0));
}

/* Each beginning of the book ends too early, at its own end. */
static void books_cut_off(struct rule rule, enum side side) {
    size_t whole = rule.book.length;
    for (rule.book.length = 0; rule.book.length < whole; rule.book.length++) {
        read_rule(rule, side);
        CHECK(refused_at(MIDGEBILLON_BOOK_ENDS_EARLY, (uint32_t)rule.book.length));
    }
}

/* ---- midgebillon_print */

/* The line of the last call's lists, in so much room; its length. */
static size_t print_in(size_t room, enum side side) {
    uint8_t *lent_out = lend(&out, room, side);
    filled(&out);
    size_t length = midgebillon_print(book.list, book.length, text.list, text.length,
                                      (const uint32_t *)(const void *)cells.list, cells.length / number, answered(),
                                      answer.length / number, lent_out, room);
    CHECK(length <= room);
    CHECK(kept_behind(&out, length));
    return length;
}

/* The lists of the last call can't be written from here on. */
static void seal_lists(void) {
    seal(&cells);
    seal(&answer);
}

static void lines_of_all_lengths(struct rule rule, enum side side) {
    read_rule(rule, side);
    seal_lists();
    size_t whole = print_in(MOST_OUT, side);
    CHECK(whole > 0 && out.list[whole - 1] == '\n');
    for (size_t room = 0; room <= whole + SOME_MORE; room++) CHECK(print_in(room, side) == (room < whole ? 0 : whole));
}

/* The line in exactly its room, and in one byte less, whichever it is. */
static void line_about_its_length(enum side side) {
    seal_lists();
    size_t whole = print_in(MOST_OUT, side);
    if (whole == 0) {
        CHECK(answered()[MIDGEBILLON_REFUSAL] == 0);
        return;
    }
    CHECK(print_in(whole, side) == whole);
    CHECK(print_in(whole - 1, side) == 0);
}

/* Numbers that are no answer: too few, or a value whose cell is not there. */
static void answers_that_are_none(struct rule rule, enum side side) {
    uint32_t kept_answer[MIDGEBILLON_ANSWER], *held = room_for(MIDGEBILLON_CELLS * number);
    read_rule(rule, side);
    memcpy(kept_answer, answered(), sizeof kept_answer);
    memcpy(held, cells.list, MIDGEBILLON_CELLS * number);
    for (size_t length = 0; length < MIDGEBILLON_ANSWER; length++) {
        lend_sealed(&answer, kept_answer, length * number, side);
        CHECK(print_in(MOST_OUT, side) == 0);
    }
    lend_sealed(&answer, kept_answer, sizeof kept_answer, side);
    size_t needed = (size_t)MIDGEBILLON_CELL_SIZE * kept_answer[MIDGEBILLON_VALUE];
    for (size_t length = 0; length <= needed + SOME_MORE; length++) {
        lend_sealed(&cells, held, length * number, side);
        CHECK((print_in(MOST_OUT, side) == 0) == (length < needed));
    }
    free(held);
}

/* A line for each refusal that there is, and for no other number. */
static void lines_of_refusals(struct rule rule, enum side side) {
    uint32_t numbers[MIDGEBILLON_ANSWER] = {0};
    read_rule(rule, side);
    for (numbers[MIDGEBILLON_REFUSAL] = 1; numbers[MIDGEBILLON_REFUSAL] < 60; numbers[MIDGEBILLON_REFUSAL]++) {
        lend_sealed(&answer, numbers, sizeof numbers, side);
        CHECK((print_in(MOST_OUT, side) != 0) == is_refusal(numbers[MIDGEBILLON_REFUSAL]));
    }
}

/* ---- midgebillon_furthest */

/* so many numbers of errors, each of kind 1 at places 5, 6 and so on, and an answer of so many numbers */
static uint32_t join(size_t errors_length, size_t out_length, enum side side) {
    uint32_t *list = lend(&errors, errors_length * number, side);
    for (size_t i = 0; i < errors_length; i++)
        list[i] = i % MIDGEBILLON_ERROR == 0 ? (uint32_t)(5 + i / MIDGEBILLON_ERROR) : MIDGEBILLON_CHARACTER_WANTED;
    seal(&errors);
    uint32_t *lent_answer = lend(&answer, out_length * number, side);
    filled(&answer);
    uint32_t none = midgebillon_furthest(list, errors_length, lent_answer, out_length);
    CHECK(none ? kept(&answer) : kept_behind(&answer, MIDGEBILLON_ERROR * number));
    return none;
}

static uint32_t joined(size_t errors_length, size_t out_length) {
    if (out_length < MIDGEBILLON_ERROR) return MIDGEBILLON_NO_ROOM;
    if (errors_length == 0) return MIDGEBILLON_NO_ERRORS;
    return errors_length % MIDGEBILLON_ERROR ? MIDGEBILLON_UNEVEN : 0;
}

static void errors_of_all_lengths(enum side side) {
    static const size_t lengths[] = {0, 1, 2, 3, 4, 6};
    for (size_t room = 0; room <= MIDGEBILLON_ERROR + SOME_MORE; room++)
        for (size_t i = 0; i < sizeof lengths / sizeof *lengths; i++) {
            uint32_t given = join(lengths[i], room, side);
            CHECK(given == joined(lengths[i], room));
            CHECK(given || answered()[0] == 4 + lengths[i] / MIDGEBILLON_ERROR);
        }
}

/* ---- Cases, and books and texts by chance */

static void known_case(const struct known *known, enum side side) {
    if (known->rule.book.length > MOST_BOOK || known->rule.text.length > MOST_TEXT) return;
    read_with(known->rule, known->cells_length, known->parses_length, MIDGEBILLON_ANSWER, side);
    CHECK(answer_is(known->answer));
    line_about_its_length(side);
    size_t length = print_in(known->line.length, side);
    CHECK(length == known->line.length && !memcmp(out.list, known->line.at, length));
}

static struct bytes by_chance(uint32_t most, uint32_t largest) {
    struct bytes bytes = {room_for(most), up_to(most)};
    for (size_t i = 0; i < bytes.length; i++) bytes.at[i] = (uint8_t)up_to(largest);
    return bytes;
}

static uint32_t some_allowance(void) {
    return up_to(99) ? up_to(RANDOM_ALLOWANCE) : drawn() >> up_to(31);
}

/* Reads at both sides, which must give the same; frees the book and the text. */
static void read_by_chance(struct bytes a_book, struct bytes a_text) {
    struct rule rule = {a_book, a_text, up_to(9) ? 0 : up_to(40), some_allowance()};
    uint32_t first[MIDGEBILLON_ANSWER];
    read_rule(rule, AT_FRONT);
    memcpy(first, answered(), sizeof first);
    line_about_its_length(AT_FRONT);
    read_rule(rule, AT_BACK);
    CHECK(answer_is(first));
    line_about_its_length(AT_BACK);
    free(a_book.at);
    free(a_text.at);
}

/* A line of numbers that no reading gave: small ones, so that cells refer to one another. */
static void print_by_chance(struct bytes a_book, enum side side) {
    size_t cells_length = up_to(60), answer_length = MIDGEBILLON_ANSWER - !up_to(20);
    lend_sealed(&book, a_book.at, a_book.length, side);
    uint32_t *list = lend(&cells, cells_length * number, side);
    for (size_t i = 0; i < cells_length; i++) list[i] = up_to(30) ? up_to(9 + (uint32_t)i / 3) : drawn();
    uint32_t *numbers = lend(&answer, answer_length * number, side);
    for (size_t i = 0; i < answer_length; i++) numbers[i] = up_to(5) ? up_to(42) : drawn();
    if (up_to(2)) numbers[MIDGEBILLON_REFUSAL] = 0;
    seal_lists();
    print_in(up_to(300), side);
    print_in(MOST_OUT, side);
}

static void by_chances(struct bytes example, struct cases cases) {
    for (int i = 0; i < RANDOM_CALLS; i++) {
        struct rule rule = cases.at[up_to((uint32_t)cases.count - 1)].rule;
        snprintf(trying, sizeof trying, "by chance, %d", i);
        if (rule.book.length + SOME_MORE > MOST_BOOK || rule.text.length + SOME_MORE > MOST_TEXT) continue;
        read_by_chance(by_chance(80, 255), by_chance(40, 127));
        read_by_chance(damaged(example), damaged(rule.text));
        read_by_chance(damaged(rule.book), damaged(rule.text));
        print_by_chance(rule.book, AT_FRONT);
        print_by_chance(rule.book, AT_BACK);
    }
}

/* ---- All */

static void on_example(struct rule value, struct rule refused, enum side side) {
    snprintf(trying, sizeof trying, "the example, side %d", (int)side);
    answers_of_all_lengths(value, side);
    answers_of_all_lengths(refused, side);
    lists_about_their_sizes(value, side);
    lists_about_their_sizes(refused, side);
    empty_lists(value, side);
    books_cut_off(value, side);
    lines_of_all_lengths(value, side);
    lines_of_all_lengths(refused, side);
    answers_that_are_none(value, side);
    lines_of_refusals(value, side);
    errors_of_all_lengths(side);
}

static struct bytes load(const char *path) {
    struct bytes file = {room_for(MOST_BOOK), 0};
    FILE *f = fopen(path, "rb");
    must(f != NULL, path);
    file.length = fread(file.at, 1, MOST_BOOK, f);
    fclose(f);
    return file;
}

int main(int argc, char **argv) {
    static uint8_t value[] = "1-2*(3-4)", open_bracket[] = "(1";
    if (argc != 3) {
        puts("usage: boundary BOOK CASES");
        return 2;
    }
    struct bytes example = load(argv[1]);
    struct cases known = cases_of(argv[2]);
    struct rule with_value = {example, {value, sizeof value - 1}, 0, MIDGEBILLON_ALLOWANCE};
    struct rule refused = {example, {open_bracket, sizeof open_bracket - 1}, 0, MIDGEBILLON_ALLOWANCE};
    open_pages();
    for (enum side side = AT_FRONT; side < SIDES; side++) {
        on_example(with_value, refused, side);
        for (size_t i = 0; i < known.count; i++) {
            snprintf(trying, sizeof trying, "case %zu, side %d", i + 1, (int)side);
            known_case(&known.at[i], side);
        }
    }
    by_chances(example, known);
    close_pages();
    free(example.at);
    free_cases(known);
    return counted("boundary");
}
