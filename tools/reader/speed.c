// Times midgebillon_read_in on texts of the example book of document 01, and prints for each the work and the best time
// of a call, whole and per unit of work. `python3 tools/reader.py --speed` compiles and runs it.
#include <stdint.h>
#include <stdio.h>
#include <string.h>
#include <time.h>

#include "midgebillon.h"

static const uint8_t book[] = {
    0, 0, 1, 0, 4, 4, 0xff, 3, 1, 1, 1, 0, 1, 3, 2, 0, 1, 3, 0xff, 3, 1, 3, 10,
    3, 0, 0, 0, 8, 0, 0, 0, 0, 0x2d, 0, 0, 8, 0, 0, 0, 8, 0, 0, 0, 0, 0x2a, 0, 0, 8, 0, 0, 0, 0, 0x28, 0, 0, 8, 0, 0, 0, 0, 0x29, 0, 0,
};

static uint32_t cells[MIDGEBILLON_CELLS], parses[MIDGEBILLON_PARSES], answer[MIDGEBILLON_ANSWER];
static size_t index_of_book[MIDGEBILLON_INDEX];
static uint32_t store[MIDGEBILLON_STORE], rows[MIDGEBILLON_ROWS];

static double now(void) {
    struct timespec t;
    clock_gettime(CLOCK_MONOTONIC, &t);
    return t.tv_sec * 1e9 + t.tv_nsec;
}

static void call(const char *text, size_t size) {
    midgebillon_read_in(book, sizeof book, (const uint8_t *)text, size, 0, MIDGEBILLON_ALLOWANCE, cells,
                        MIDGEBILLON_CELLS, parses, MIDGEBILLON_PARSES, index_of_book, MIDGEBILLON_INDEX, store,
                        MIDGEBILLON_STORE, rows, MIDGEBILLON_ROWS, answer, MIDGEBILLON_ANSWER);
}

static void time_of(const char *name, const char *text) {
    size_t size = strlen(text);
    double best = 1e18, spent = 0;
    int times = 0;
    while (spent < 2e9 || times < 20) {
        double begun = now();
        call(text, size);
        double took = now() - begun;
        if (took < best) best = took;
        spent += took;
        times++;
    }
    printf("%s: %zu bytes, refusal %u, work %u, %u parses: best of %d calls %.1f us, mean %.1f us; %.2f ns a unit\n", name, size, answer[0], answer[4],
           answer[5], times, best / 1e3, spent / times / 1e3, answer[4] ? best / answer[4] : 0);
}

// n operators, taken in turn from `operators`, between numbers: `bytes` bytes in all, the numbers as equally long as that allows.
static void chain(const char *name, size_t n, const char *operators, size_t bytes) {
    char text[4097];
    size_t at = 0, digits = bytes - n;
    for (size_t i = 0; i <= n; i++) {
        size_t end = at + digits / (n + 1) + (i < digits % (n + 1));
        while (at < end) text[at] = '1' + at % 9, at++;
        if (i < n) text[at++] = operators[i % strlen(operators)];
    }
    text[at] = 0;
    char label[64];
    snprintf(label, sizeof label, "%s, %zu operators", name, n);
    time_of(label, text);
}

int main(void) {
    time_of("empty", "");
    time_of("1-2-3", "1-2-3");
    for (size_t n = 20; n <= 60; n += 20) chain("minus", n, "-", 200);
    for (size_t n = 20; n <= 60; n += 20) chain("times", n, "*", 200);
    for (size_t n = 20; n <= 60; n += 20) chain("minus and times", n, "-*", 200);
    for (size_t n = 20; n <= 60; n += 20) chain("one digit, minus", n, "-", 2 * n + 1);
}
