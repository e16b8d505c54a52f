/* The README's example: a note and its remark with a softline between them, built by the constructors and laid out at 12 columns. */
#define PURSEGABLE_WRITTEN_FOR 1
#include <pursegable.h>
#include <stdio.h>
#include <stdlib.h>

static uint32_t table[64], counts[PURSEGABLE_COUNTS_WORDS], work[PURSEGABLE_WORK_WORDS], report[PURSEGABLE_REPORT_WORDS];
static uint8_t text[64], out[64];
static pursegable_event events[1];

#define DRAFT table, 64, text, 64, counts, PURSEGABLE_COUNTS_WORDS
#define ROOM out, 64, events, 1, work, PURSEGABLE_WORK_WORDS, report, PURSEGABLE_REPORT_WORDS
#define ASCII(s) (const uint8_t *)(s), sizeof(s) - 1, sizeof(s) - 1 /* the bytes, their length, and as many columns */

/* A refusal ends the program; else this is the node that was made. */
static uint32_t made(uint32_t answer)
{
    if (answer != PURSEGABLE_OK) {
        fprintf(stderr, "%s\n", pursegable_answer_text(answer));
        exit(1);
    }
    return counts[PURSEGABLE_COUNTS_MADE];
}

int main(void)
{
    uint32_t note = made(pursegable_text(ASCII("Fis"), DRAFT));
    uint32_t blank = made(pursegable_make(PURSEGABLE_SOFTLINE, 0, 0, 0, DRAFT));
    uint32_t remark = made(pursegable_text(ASCII("neu beledern"), DRAFT));
    uint32_t nodes[] = {note, blank, remark};
    uint32_t row = made(pursegable_concat(nodes, 3, DRAFT));
    made(pursegable_layout(table, 4 * (row + 1), text, counts[PURSEGABLE_COUNTS_BYTES], 12, 1000, ROOM));
    printf("%.*s\n", (int)report[PURSEGABLE_REPORT_BYTES], (const char *)out);
    return 0;
}
