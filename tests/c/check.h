/* Checks that are counted, numbers from a fixed seed, and cases from a file, for the tests. */
#ifndef CHECK_H
#define CHECK_H

#include "midgebillon.h"

#include <stdio.h>
#include <stdlib.h>
#include <string.h>

/* how many checks were made and how many failed, and what was being tried */
static unsigned long checked, failed;
static char trying[200];

enum { SHOWN = 20 };

static void check(int holds, const char *what, int line) {
    checked++;
    if (holds) return;
    if (failed++ < SHOWN) printf("%s: line %d: not %s\n", trying, line, what);
}

#define CHECK(what) check((what), #what, __LINE__)

/* Prints the counts, and gives the exit status. */
static inline int counted(const char *name) {
    printf("%s: %lu checks, %lu failed\n", name, checked, failed);
    return failed != 0 || checked == 0;
}

static void *room_for(size_t size) {
    void *room = malloc(size ? size : 1);
    if (!room) {
        puts("no memory");
        exit(3);
    }
    return room;
}

/* ---- Numbers that look random, the same in each run */

static uint64_t state = 0x9E3779B97F4A7C15u;

static uint32_t drawn(void) {
    state ^= state << 13;
    state ^= state >> 7;
    state ^= state << 17;
    return (uint32_t)(state >> 32);
}

/* one of 0 to `most` */
static inline uint32_t up_to(uint32_t most) {
    return drawn() % (most + 1);
}

/* ---- Cases: what a call takes, and what it answers */

struct bytes {
    uint8_t *at;
    size_t length;
};

struct rule {
    struct bytes book, text;
    uint32_t start, allowance;
};

struct known {
    struct rule rule;
    size_t cells_length, parses_length;
    uint32_t answer[MIDGEBILLON_ANSWER];
    struct bytes line;
};

/* the longest line of a file of cases */
enum { LONGEST_CASE = 1 << 20 };

/* bytes as hexadecimal digits; `-` is none */
static struct bytes of_digits(const char *digits) {
    struct bytes bytes = {NULL, 0};
    size_t length = strcmp(digits, "-") ? strlen(digits) / 2 : 0;
    unsigned byte;
    bytes.at = room_for(length);
    while (bytes.length < length && sscanf(digits + 2 * bytes.length, "%2x", &byte) == 1)
        bytes.at[bytes.length++] = (uint8_t)byte;
    return bytes;
}

static uint32_t next_number(void) {
    const char *word = strtok(NULL, " \n");
    return word ? (uint32_t)strtoul(word, NULL, 10) : 0;
}

static struct bytes next_bytes(void) {
    const char *word = strtok(NULL, " \n");
    return of_digits(word ? word : "-");
}

/* A line of the file: book, text, start, allowance, the lengths of both lists, the seven numbers of the answer, and its
 * printed line. */
static struct known case_of(char *line) {
    struct known known;
    known.rule.book = of_digits(strtok(line, " \n"));
    known.rule.text = next_bytes();
    known.rule.start = next_number();
    known.rule.allowance = next_number();
    known.cells_length = next_number();
    known.parses_length = next_number();
    for (int i = 0; i < MIDGEBILLON_ANSWER; i++) known.answer[i] = next_number();
    known.line = next_bytes();
    return known;
}

struct cases {
    struct known *at;
    size_t count;
};

static inline struct cases cases_of(const char *path) {
    struct cases cases = {NULL, 0};
    char *line = room_for(LONGEST_CASE);
    FILE *file = fopen(path, "r");
    while (file && fgets(line, LONGEST_CASE, file)) {
        cases.at = realloc(cases.at, (cases.count + 1) * sizeof *cases.at);
        if (cases.at) cases.at[cases.count++] = case_of(line);
    }
    if (file) fclose(file);
    free(line);
    if (cases.count) return cases;
    printf("no cases in %s\n", path);
    exit(3);
}

static inline void free_cases(struct cases cases) {
    for (size_t i = 0; i < cases.count; i++) {
        free(cases.at[i].rule.book.at);
        free(cases.at[i].rule.text.at);
        free(cases.at[i].line.at);
    }
    free(cases.at);
}

/* A copy of bytes with up to three damages: a byte changed, taken out or put in, or the end cut off. */
static inline struct bytes damaged(struct bytes bytes) {
    enum { MOST_DAMAGES = 3 };
    struct bytes copy = {room_for(bytes.length + MOST_DAMAGES), bytes.length};
    if (bytes.length) memcpy(copy.at, bytes.at, bytes.length);
    for (uint32_t left = up_to(MOST_DAMAGES); left > 0; left--) {
        size_t place = up_to((uint32_t)copy.length), behind = copy.length - place;
        uint32_t way = up_to(9);
        if (way == 0) copy.length = place;
        else if (way <= 2) {
            memmove(copy.at + place + 1, copy.at + place, behind);
            copy.at[place] = (uint8_t)drawn();
            copy.length++;
        } else if (behind && way <= 4) {
            memmove(copy.at + place, copy.at + place + 1, behind - 1);
            copy.length--;
        } else if (behind)
            copy.at[place] = (uint8_t)(way <= 7 ? up_to(14) : drawn());
    }
    return copy;
}

#endif
