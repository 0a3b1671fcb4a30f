/* read_in CASES: midgebillon_read_in, with working memory of exactly its size that holds rubbish, or what another call
 * left there, each list between pages that can't be touched (pages.h). Its answers and lists are those of
 * midgebillon_read; a list that is one number too short is refused, and nothing but the answer is written. CASES has
 * books and texts. Exit status 0 if all is well. */
#include "pages.h"

enum { MOST_BOOK = 4096, MOST_TEXT = 8192, RANDOM_CALLS = 3000, RANDOM_ALLOWANCE = 20000 };

/* the lists that a call writes, by their places in `lists` */
enum { CELLS, PARSES, INDEX, STORE, ROWS, ANSWER, LISTS };

static const size_t needed[LISTS] = {MIDGEBILLON_CELLS, MIDGEBILLON_PARSES, MIDGEBILLON_INDEX,
                                     MIDGEBILLON_STORE, MIDGEBILLON_ROWS,   MIDGEBILLON_ANSWER};

static struct pages book, text, lists[LISTS];

static size_t size_in(int list) {
    return list == INDEX ? sizeof(size_t) : sizeof(uint32_t);
}

static void open_pages(void) {
    book = pages_for(MOST_BOOK);
    text = pages_for(MOST_TEXT);
    for (int i = 0; i < LISTS; i++) lists[i] = pages_for((needed[i] + 1) * size_in(i));
}

static void close_pages(void) {
    free(book.before);
    free(text.before);
    for (int i = 0; i < LISTS; i++) free(lists[i].before);
}

/* Each number of the list different, so that working memory that is taken for cleared shows. */
static void fill_with_rubbish(struct pages *pages) {
    for (size_t i = 0; i + sizeof(uint32_t) <= pages->length; i += sizeof(uint32_t)) {
        uint32_t rubbish = drawn() >> up_to(31);
        memcpy(pages->list + i, &rubbish, sizeof rubbish);
    }
}

static int is_working_memory(int list) {
    return list == INDEX || list == STORE || list == ROWS;
}

/* Working memory as the last call left it is most like what this one writes, and so best taken for its own. */
enum memory { RUBBISH, LEFT_OVER };

static void lend_all(struct rule rule, const size_t *lengths, enum memory memory, enum side side) {
    lend_sealed(&book, rule.book.at, rule.book.length, side);
    lend_sealed(&text, rule.text.at, rule.text.length, side);
    for (int i = 0; i < LISTS; i++) {
        if (memory == RUBBISH || !is_working_memory(i)) {
            lend(&lists[i], lengths[i] * size_in(i), side);
            fill_with_rubbish(&lists[i]);
        }
        filled(&lists[i]);
    }
}

static uint32_t *numbers_of(int list) {
    return (uint32_t *)(void *)lists[list].list;
}

static void read_in(struct rule rule, const size_t *lengths, enum memory memory, enum side side) {
    lend_all(rule, lengths, memory, side);
    midgebillon_read_in(book.list, book.length, text.list, text.length, rule.start, rule.allowance,
                        numbers_of(CELLS), lengths[CELLS], numbers_of(PARSES), lengths[PARSES],
                        (size_t *)(void *)lists[INDEX].list, lengths[INDEX], numbers_of(STORE), lengths[STORE],
                        numbers_of(ROWS), lengths[ROWS], numbers_of(ANSWER), lengths[ANSWER]);
}

/* Whether the bytes around each list are as they were: a call may write the lists alone. */
static int kept_around(void) {
    for (int i = 0; i < LISTS; i++)
        if (!kept_behind(&lists[i], lists[i].length)) return 0;
    return 1;
}

/* Whether all lists but this one are as they were, and this one behind its first `written` numbers. */
static int kept_but(int list, size_t written) {
    for (int i = 0; i < LISTS; i++)
        if (!kept_behind(&lists[i], i == list ? written * size_in(i) : 0)) return 0;
    return 1;
}

/* What midgebillon_read makes of the same numbers in cells and parses. */
static int same_as_read(struct rule rule) {
    static uint32_t cells[MIDGEBILLON_CELLS], parses[MIDGEBILLON_PARSES];
    uint32_t answer[MIDGEBILLON_ANSWER];
    size_t front = (size_t)(lists[CELLS].list - lists[CELLS].at);
    memcpy(cells, lists[CELLS].before + front, sizeof cells);
    front = (size_t)(lists[PARSES].list - lists[PARSES].at);
    memcpy(parses, lists[PARSES].before + front, sizeof parses);
    midgebillon_read(rule.book.at, rule.book.length, rule.text.at, rule.text.length, rule.start, rule.allowance, cells,
                     MIDGEBILLON_CELLS, parses, MIDGEBILLON_PARSES, answer, MIDGEBILLON_ANSWER);
    return !memcmp(answer, numbers_of(ANSWER), sizeof answer) && !memcmp(cells, numbers_of(CELLS), sizeof cells) &&
           !memcmp(parses, numbers_of(PARSES), sizeof parses);
}

static void check_call(struct rule rule, enum memory memory, enum side side) {
    read_in(rule, needed, memory, side);
    CHECK(kept_around());
    CHECK(same_as_read(rule));
}

/* One list after the other is one number too short: the answer is 1, or where that is the answer, nothing. */
static void check_short_lists(struct rule rule, enum side side) {
    static const uint32_t wanted[MIDGEBILLON_ANSWER] = {MIDGEBILLON_SHORT_LISTS};
    for (int i = 0; i < LISTS; i++) {
        size_t lengths[LISTS];
        memcpy(lengths, needed, sizeof lengths);
        lengths[i]--;
        read_in(rule, lengths, RUBBISH, side);
        CHECK(i == ANSWER || !memcmp(numbers_of(ANSWER), wanted, sizeof wanted));
        CHECK(kept_but(ANSWER, i == ANSWER ? 0 : MIDGEBILLON_ANSWER));
    }
}

/* One list after the other has a number more: that of cells, parses and answer stays, and the answer is the same. */
static void check_long_lists(struct rule rule, enum side side) {
    for (int i = 0; i < LISTS; i++) {
        size_t lengths[LISTS];
        memcpy(lengths, needed, sizeof lengths);
        lengths[i]++;
        read_in(rule, lengths, RUBBISH, side);
        CHECK(same_as_read(rule));
        CHECK(kept_around());
        CHECK(kept_behind(&lists[CELLS], MIDGEBILLON_CELLS * size_in(CELLS)));
        CHECK(kept_behind(&lists[PARSES], MIDGEBILLON_PARSES * size_in(PARSES)));
        CHECK(kept_behind(&lists[ANSWER], MIDGEBILLON_ANSWER * size_in(ANSWER)));
    }
}

/* Damaged books and texts, each after the other in the same memory. */
static void check_by_chance(struct rule rule) {
    struct rule other = {damaged(rule.book), damaged(rule.text), rule.start, up_to(RANDOM_ALLOWANCE)};
    check_call(other, LEFT_OVER, AT_BACK);
    free(other.book.at);
    free(other.text.at);
}

static int fits(struct rule rule) {
    enum { MOST_PUT_IN = 3 };
    return rule.book.length + MOST_PUT_IN <= MOST_BOOK && rule.text.length + MOST_PUT_IN <= MOST_TEXT;
}

static void check_case(struct rule rule) {
    for (enum side side = AT_FRONT; side < SIDES; side++) {
        if (up_to(9) == 0) {
            check_short_lists(rule, side);
            check_long_lists(rule, side);
        }
        check_call(rule, RUBBISH, side);
        check_call(rule, LEFT_OVER, side);
    }
}

int main(int argc, char **argv) {
    if (argc != 2) {
        puts("usage: read_in CASES");
        return 2;
    }
    struct cases cases = cases_of(argv[1]);
    open_pages();
    for (size_t i = 0; i < cases.count; i++) {
        snprintf(trying, sizeof trying, "case %zu", i + 1);
        if (fits(cases.at[i].rule)) check_case(cases.at[i].rule);
    }
    for (int i = 0; i < RANDOM_CALLS; i++) {
        struct rule rule = cases.at[up_to((uint32_t)cases.count - 1)].rule;
        snprintf(trying, sizeof trying, "by chance, %d", i);
        if (fits(rule)) check_by_chance(rule);
    }
    close_pages();
    free_cases(cases);
    return counted("read_in");
}
