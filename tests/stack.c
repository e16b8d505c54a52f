/* How many bytes of stack each export takes. A call runs on a stack of its own that was painted before; how deep the paint is gone
 * afterwards is what it took, its arguments with it, less what an empty call takes. Each call is made once before, so that the
 * dynamic linker's own stack isn't counted. Prints the most of each export and fails where the header names fewer. */
#define _XOPEN_SOURCE 700
#include "pursegable.h"
#include <stdio.h>
#include <string.h>
#include <ucontext.h>

#define PAINT 0x5A
#define STACK_BYTES (1 << 18)

static unsigned char stack[STACK_BYTES];
static ucontext_t here, there;

static uint32_t table[PURSEGABLE_MOST_TABLE_WORDS], counts[PURSEGABLE_COUNTS_WORDS], work[PURSEGABLE_WORK_WORDS];
static uint32_t report[PURSEGABLE_REPORT_WORDS], event_words[PURSEGABLE_EVENT_WORDS * PURSEGABLE_MOST_EVENTS];
static uint8_t text[PURSEGABLE_MOST_TEXT_BYTES], out[PURSEGABLE_MOST_OUT_BYTES];
static pursegable_event events[PURSEGABLE_MOST_EVENTS];
static uint32_t what, operand;

/* ---- the calls, each with all the room there can be */

#define LENT table, PURSEGABLE_MOST_TABLE_WORDS, text, sizeof text, counts, PURSEGABLE_COUNTS_WORDS
#define DOCUMENT table, 4 * ((size_t)counts[PURSEGABLE_COUNTS_MADE] + 1), text, counts[PURSEGABLE_COUNTS_BYTES]
#define ROOM out, sizeof out, events, PURSEGABLE_MOST_EVENTS, work, PURSEGABLE_WORK_WORDS, report, PURSEGABLE_REPORT_WORDS

static void nothing(void)
{
}

static void layout(void)
{
    pursegable_layout(DOCUMENT, 5, 1000000, ROOM);
}

static void sheet(void)
{
    pursegable_sheet(DOCUMENT, ROOM);
}

static void label(void)
{
    pursegable_label(DOCUMENT, ROOM);
}

static void layout_words(void)
{
    pursegable_layout_words(DOCUMENT, 5, 1000000, out, sizeof out, event_words, PURSEGABLE_EVENT_WORDS * PURSEGABLE_MOST_EVENTS, work,
                            PURSEGABLE_WORK_WORDS, report, PURSEGABLE_REPORT_WORDS);
}

static void why(void)
{
    pursegable_why(DOCUMENT, 5, 1000000, 3, out, sizeof out, event_words, PURSEGABLE_EVENT_WORDS * PURSEGABLE_MOST_EVENTS, work,
                   PURSEGABLE_WORK_WORDS, report, PURSEGABLE_REPORT_WORDS);
}

static void make(void)
{
    pursegable_make(what, operand, operand, what == PURSEGABLE_ENCLOSE ? operand : 0, LENT);
}

static void text_of(void)
{
    pursegable_text((const uint8_t *)"Dis\xC3\xA9", 5, 4, LENT);
}

static void concat(void)
{
    uint32_t nodes[3] = {operand, operand, operand};
    pursegable_concat(nodes, 3, LENT);
}

static void intersperse(void)
{
    uint32_t nodes[3] = {operand, operand, operand};
    pursegable_intersperse(nodes, 3, operand, LENT);
}

static void block(void)
{
    uint32_t affixes[PURSEGABLE_MOST_AFFIXES];
    uint8_t nests[PURSEGABLE_MOST_AFFIXES];
    for (int i = 0; i < PURSEGABLE_MOST_AFFIXES; i++)
        affixes[i] = operand, nests[i] = 1;
    pursegable_block(operand, 2, PURSEGABLE_ADDS, affixes, PURSEGABLE_MOST_AFFIXES, affixes, PURSEGABLE_MOST_AFFIXES, nests,
                     PURSEGABLE_MOST_AFFIXES, LENT);
}

/* ---- measuring */

static void (*job)(void);

static void run(void)
{
    job();
    swapcontext(&there, &here);
}

static size_t deep(void (*call)(void))
{
    size_t i = 0;
    job = call;
    memset(stack, PAINT, sizeof stack);
    getcontext(&there);
    there.uc_stack.ss_sp = stack;
    there.uc_stack.ss_size = sizeof stack;
    there.uc_link = NULL;
    makecontext(&there, run, 0);
    swapcontext(&here, &there);
    while (i < sizeof stack && stack[i] == PAINT)
        i++;
    return sizeof stack - i;
}

static size_t taken(void (*call)(void))
{
    size_t empty = deep(nothing), took;
    call();
    took = deep(call);
    return took > empty ? took - empty : 0;
}

/* The document that is laid out: a block of blocks, marked, so that every kind of node and of refusal is on the way. */
static void document(void)
{
    text_of();
    operand = counts[PURSEGABLE_COUNTS_MADE];
    what = PURSEGABLE_LINE;
    make();
    uint32_t nodes[3] = {operand, counts[PURSEGABLE_COUNTS_MADE], operand};
    pursegable_concat(nodes, 3, LENT);
    operand = counts[PURSEGABLE_COUNTS_MADE];
    block();
    operand = counts[PURSEGABLE_COUNTS_MADE];
    what = PURSEGABLE_ANNOTATE;
    make();
}

static int told(const char *name, size_t took, size_t most)
{
    printf("stack.c: %s takes %zu bytes\n", name, took);
    if (took < most)
        return 0;
    printf("stack.c: the header says fewer than %zu\n", most);
    return 1;
}

int main(void)
{
    int wrong = 0;
    size_t most = 0;
    document();
    wrong |= told("pursegable_layout", taken(layout), PURSEGABLE_STACK_LAYOUT);
    if (report[PURSEGABLE_REPORT_ANSWER] != PURSEGABLE_OK || report[PURSEGABLE_REPORT_BYTES] == 0) {
        printf("stack.c: nothing was laid out: %s\n", pursegable_answer_text(report[PURSEGABLE_REPORT_ANSWER]));
        return 1;
    }
    wrong |= told("pursegable_sheet", taken(sheet), PURSEGABLE_STACK_LAYOUT);
    wrong |= told("pursegable_label", taken(label), PURSEGABLE_STACK_LAYOUT);
    wrong |= told("pursegable_layout_words", taken(layout_words), PURSEGABLE_STACK_OTHER);
    wrong |= told("pursegable_why", taken(why), PURSEGABLE_STACK_OTHER);
    for (what = 0; what <= PURSEGABLE_ENCLOSE; what++) {
        size_t took = taken(make);
        most = took > most ? took : most;
    }
    wrong |= told("pursegable_make", most, PURSEGABLE_STACK_OTHER);
    wrong |= told("pursegable_text", taken(text_of), PURSEGABLE_STACK_OTHER);
    wrong |= told("pursegable_concat", taken(concat), PURSEGABLE_STACK_OTHER);
    wrong |= told("pursegable_intersperse", taken(intersperse), PURSEGABLE_STACK_OTHER);
    wrong |= told("pursegable_block", taken(block), PURSEGABLE_STACK_BLOCK);
    return wrong;
}
