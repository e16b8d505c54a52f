/* Runs tests/cases.txt through the static library and checks every element of every buffer afterwards.
 * Each buffer is its own allocation of just its length, filled with other values first, so that valgrind sees a step outside it.
 * Prints how much was checked; stops at the first difference. */
#include "pursegable.h"
#include <stdio.h>
#include <stdlib.h>
#include <string.h>

#define FILL 0xA5
#define MOST_PARTS 9
#define BLOCK_PARTS 5

static int line_no;
static unsigned long calls, checked;

static void fail(const char *what, size_t at)
{
    printf("link.c: line %d of the cases: %s differs at %zu\n", line_no, what, at);
    exit(1);
}

static void *lend(size_t n, size_t size)
{
    unsigned char *p = malloc(n * size + !n);
    if (!p) {
        printf("link.c: no memory\n");
        exit(1);
    }
    memset(p, FILL, n * size);
    return p;
}

/* The whole of a buffer, element by element. */
static void same(const char *what, const void *have, const void *want, size_t n, size_t size)
{
    for (size_t i = 0; i < n; i++, checked += size)
        if (memcmp((const char *)have + i * size, (const char *)want + i * size, size) != 0)
            fail(what, i);
}

static void equal(const char *what, uint64_t have, uint64_t want)
{
    checked += 4;
    if (have != want) {
        printf("link.c: line %d of the cases: %s is %llu, not %llu\n", line_no, what, (unsigned long long)have, (unsigned long long)want);
        exit(1);
    }
}

/* ---- reading the cases */

/* Words, V*N for N times V. */
static size_t words(const char *s, uint32_t **out)
{
    size_t n = 0, room = 16;
    uint32_t *w = malloc(room * sizeof *w);
    for (;;) {
        char *end;
        unsigned long v = strtoul(s, &end, 10), times = 1;
        if (end == s)
            break;
        if (*end == '*')
            times = strtoul(end + 1, &end, 10);
        for (; times; times--) {
            if (n == room)
                w = realloc(w, (room *= 2) * sizeof *w);
            w[n++] = (uint32_t)v;
        }
        s = end;
    }
    *out = realloc(w, n ? n * sizeof *w : 1);
    return n;
}

/* Bytes in hex, '-' for none, HH*N for N times one. */
static size_t bytes(const char *s, uint8_t **out)
{
    size_t n = 0;
    unsigned v;
    uint8_t *b;
    while (*s == ' ')
        s++;
    if (strchr(s, '*')) {
        n = strtoul(strchr(s, '*') + 1, NULL, 10);
        sscanf(s, "%2x", &v);
        b = malloc(n);
        memset(b, (int)v, n);
    } else {
        b = malloc(strlen(s) / 2 + 1);
        for (; sscanf(s, "%2x", &v) == 1; s += 2)
            b[n++] = (uint8_t)v;
        b = realloc(b, n ? n : 1);
    }
    *out = b;
    return n;
}

static size_t parts(char *line, char **part)
{
    size_t n = 0;
    line[strcspn(line, "\n")] = 0;
    for (char *p = line; p && n < MOST_PARTS; n++) {
        part[n] = p;
        p = strchr(p, '|');
        if (p)
            *p++ = 0;
    }
    return n;
}

/* ---- a call */

enum form { LAYOUT, SHEET, LABEL, WORDS };

static void call(char **part, enum form form)
{
    uint32_t *table, *at, *sizes, *answer, *marks, *want_report, *zero;
    uint8_t *text, *used, *want_out;
    size_t table_len = words(part[3], &table), text_len = bytes(part[4], &text), used_len, marks_len, r;
    words(part[1], &at);
    words(part[2], &sizes);
    words(part[5], &answer);
    used_len = bytes(part[6], &used);
    marks_len = words(part[7], &marks);
    size_t room = sizes[0], slots = sizes[1], work_len = sizes[2], report_len = sizes[3], words_len = slots * PURSEGABLE_EVENT_WORDS;
    uint32_t *table_was = malloc(table_len * 4 + 1);
    uint8_t *text_was = malloc(text_len + 1);
    memcpy(table_was, table, table_len * 4);
    memcpy(text_was, text, text_len);
    uint8_t *out = lend(room, 1);
    pursegable_event *events = lend(slots, sizeof *events);
    uint32_t *work = lend(work_len, 4), *report = lend(report_len, 4);
    switch (form) {
    case LAYOUT:
        r = pursegable_layout(table, table_len, text, text_len, at[0], at[1], out, room, events, slots, work, work_len, report, report_len);
        break;
    case SHEET:
        r = pursegable_sheet(table, table_len, text, text_len, out, room, events, slots, work, work_len, report, report_len);
        break;
    case LABEL:
        r = pursegable_label(table, table_len, text, text_len, out, room, events, slots, work, work_len, report, report_len);
        break;
    default:
        r = pursegable_layout_words(table, table_len, text, text_len, at[0], at[1], out, room, (uint32_t *)events, words_len, work, work_len, report, report_len);
    }
    calls++;
    equal("the answer", r, answer[0]);
    want_out = calloc(room + 1, 1);
    memcpy(want_out, used, used_len);
    same("the output", out, want_out, room, 1);
    zero = calloc(words_len + work_len + report_len + 1, 4);
    memcpy(zero, marks, marks_len * 4);
    same("the events", events, zero, words_len, 4);
    memset(zero, 0, marks_len * 4);
    same("the work area", work, zero, work_len, 4);
    want_report = calloc(report_len + PURSEGABLE_REPORT_WORDS, 4);
    if (report_len >= PURSEGABLE_REPORT_WORDS) {
        memcpy(want_report, answer, 3 * 4);
        want_report[PURSEGABLE_REPORT_BYTES] = (uint32_t)used_len;
        want_report[PURSEGABLE_REPORT_EVENTS] = (uint32_t)(marks_len / PURSEGABLE_EVENT_WORDS);
    }
    same("the report", report, want_report, report_len, 4);
    same("the table", table, table_was, table_len, 4);
    same("the text", text, text_was, text_len, 1);
    free(table), free(at), free(sizes), free(answer), free(marks), free(want_report), free(zero), free(text), free(used), free(want_out);
    free(table_was), free(text_was), free(out), free(events), free(work), free(report);
}

/* ---- why */

static void ask(char **part)
{
    uint32_t *table, *at, *sizes, *answer, *want_report, *zero;
    uint8_t *text;
    size_t table_len = words(part[3], &table), text_len = bytes(part[4], &text);
    words(part[1], &at);
    words(part[2], &sizes);
    words(part[5], &answer);
    size_t room = sizes[0], words_len = sizes[1] * PURSEGABLE_EVENT_WORDS, work_len = sizes[2], report_len = sizes[3];
    uint8_t *out = lend(room, 1);
    uint32_t *events = lend(words_len, 4), *work = lend(work_len, 4), *report = lend(report_len, 4);
    uint32_t r = pursegable_why(table, table_len, text, text_len, at[0], at[1], at[2], out, room, events, words_len, work, work_len, report, report_len);
    calls++;
    equal("the answer", r, answer[PURSEGABLE_WHY_ANSWER]);
    zero = calloc(room + words_len + work_len + 1, 4);
    same("the output", out, zero, room, 1);
    same("the events", events, zero, words_len, 4);
    same("the work area", work, zero, work_len, 4);
    want_report = calloc(report_len + PURSEGABLE_REPORT_WORDS, 4);
    if (report_len >= PURSEGABLE_REPORT_WORDS)
        memcpy(want_report, answer, PURSEGABLE_REPORT_WORDS * 4);
    same("the report", report, want_report, report_len, 4);
    free(table), free(at), free(sizes), free(answer), free(want_report), free(zero), free(text), free(out), free(events), free(work), free(report);
}

/* ---- constructors */

static uint32_t *table, *counts;
static uint8_t *text;
static size_t table_len, text_len, counts_len;

static void lend_sheet(char **part)
{
    uint32_t *sizes;
    free(table), free(counts), free(text);
    counts_len = words(part[0] + strlen("counts"), &counts);
    words(part[1], &sizes);
    table_len = sizes[0], text_len = sizes[1];
    table = lend(table_len, 4);
    text = lend(text_len, 1);
    free(sizes);
}

static uint32_t made(char *what)
{
    uint32_t *w, r;
    size_t n;
    if (!strncmp(what, "make", 4)) {
        words(what + 4, &w);
        r = pursegable_make(w[0], w[1], w[2], w[3], table, table_len, text, text_len, counts, counts_len);
    } else if (!strncmp(what, "text", 4)) {
        uint8_t *b;
        char *columns = strchr(what + 5, ' ');
        *columns = 0;
        n = bytes(what + 5, &b);
        words(columns + 1, &w);
        r = pursegable_text(b, n, w[0], table, table_len, text, text_len, counts, counts_len);
        free(b);
    } else if (!strncmp(what, "concat", 6)) {
        n = words(what + 6, &w);
        r = pursegable_concat(w, n, table, table_len, text, text_len, counts, counts_len);
    } else {
        n = words(what + strlen("intersperse"), &w);
        r = pursegable_intersperse(w + 1, n - 1, w[0], table, table_len, text, text_len, counts, counts_len);
    }
    free(w);
    return r;
}

static uint32_t block_made(char **part)
{
    uint32_t *w, *prefixes, *suffixes, *flags;
    words(part[0] + strlen("block"), &w);
    size_t p = words(part[1], &prefixes), s = words(part[2], &suffixes), n = words(part[3], &flags);
    uint8_t *nests = lend(n, 1);
    for (size_t i = 0; i < n; i++)
        nests[i] = (uint8_t)flags[i];
    uint32_t r = pursegable_block(w[0], w[1], w[2], prefixes, p, suffixes, s, nests, n, table, table_len, text, text_len, counts, counts_len);
    free(w), free(prefixes), free(suffixes), free(flags), free(nests);
    return r;
}

/* A constructor's call; its answer and the counts afterwards are the line's last part. */
static void construct(char **part, size_t n)
{
    uint32_t *want, *table_was = malloc(table_len * 4 + 1), r;
    uint8_t *text_was = malloc(text_len + 1);
    size_t want_len = words(part[n - 1], &want);
    memcpy(table_was, table, table_len * 4);
    memcpy(text_was, text, text_len);
    r = n == BLOCK_PARTS ? block_made(part) : made(part[0]);
    calls++;
    equal("the answer", r, want[0]);
    equal("the length of the counts", counts_len, want_len - 1);
    same("the counts", counts, want + 1, counts_len, 4);
    if (r) {
        same("the table", table, table_was, table_len, 4);
        same("the text", text, text_was, text_len, 1);
    }
    free(want), free(table_was), free(text_was);
}

/* What was built, and the rest as it was lent. */
static void holds(char **part)
{
    uint32_t *w, *whole = lend(table_len, 4);
    uint8_t *b, *all = lend(text_len, 1);
    size_t n = words(part[1], &w), m = bytes(part[2], &b);
    memcpy(whole, w, n * 4);
    memcpy(all, b, m);
    same("the table", table, whole, table_len, 4);
    same("the text", text, all, text_len, 1);
    free(w), free(whole), free(b), free(all);
}

/* Node n is laid out by lending the table up to n. */
static void lay(char **part)
{
    uint32_t *at, *answer, report[PURSEGABLE_REPORT_WORDS], *work = lend(PURSEGABLE_WORK_WORDS, 4);
    uint8_t *want, out[64];
    size_t n;
    words(part[0] + 3, &at);
    words(part[1], &answer);
    n = bytes(part[2], &want);
    pursegable_event one;
    uint32_t r = pursegable_layout(table, 4 * ((size_t)at[0] + 1), text, counts[PURSEGABLE_COUNTS_BYTES], at[1], 1000000, out, sizeof out, &one, 1, work, PURSEGABLE_WORK_WORDS, report, PURSEGABLE_REPORT_WORDS);
    calls++;
    equal("the answer", r, answer[0]);
    same("the report", report, answer, 3, 4);
    equal("the used bytes", report[PURSEGABLE_REPORT_BYTES], n);
    same("the output", out, want, n, 1);
    free(at), free(answer), free(want), free(work);
}

int main(int argc, char **argv)
{
    static char line[1 << 16];
    char *part[MOST_PARTS];
    FILE *f = argc == 2 ? fopen(argv[1], "r") : NULL;
    if (!f) {
        printf("link.c: give it the cases\n");
        return 1;
    }
    for (line_no = 1; fgets(line, sizeof line, f); line_no++) {
        if (*line == '#' || *line == '\n')
            continue;
        size_t n = parts(line, part);
        if (!strncmp(line, "call", 4) && n == 8) {
            unsigned long width = strtoul(part[1], NULL, 10), limit = strtoul(strchr(part[1] + 1, ' '), NULL, 10);
            call(part, LAYOUT);
            call(part, WORDS);
            if (width == PURSEGABLE_SHEET_WIDTH && limit == PURSEGABLE_DEFAULT_STEPS)
                call(part, SHEET);
            if (width == PURSEGABLE_LABEL_WIDTH && limit == PURSEGABLE_DEFAULT_STEPS)
                call(part, LABEL);
        } else if (!strncmp(line, "why", 3) && n == 6) {
            ask(part);
        } else if (!strncmp(line, "counts", 6) && n == 2) {
            lend_sheet(part);
        } else if (!strncmp(line, "holds", 5) && n == 3) {
            holds(part);
        } else if (!strncmp(line, "lay", 3) && n == 3) {
            lay(part);
        } else if (n == 2 || (!strncmp(line, "block", 5) && n == BLOCK_PARTS)) {
            construct(part, n);
        } else {
            fail("a line that can't be read", n);
        }
    }
    fclose(f);
    free(table), free(counts), free(text);
    if (calls < 250) {
        printf("link.c: only %lu calls\n", calls);
        return 1;
    }
    printf("link.c: %lu calls, %lu bytes of answers and buffers as they should be\n", calls, checked);
    return 0;
}
