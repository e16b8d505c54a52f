/* Pursegable, for C: lays documents out on a strip of so many columns.
 *
 * In order: how to link, what a caller owes, what a call takes, the version; answers, sizes and kinds by name; the event record;
 * layout, sheet and label; why a group broke; the constructors; the block layouts. tests/example.c is the README's example. docs/FROM-PRETTY.md says
 * what each function of the Rust crate pretty is here.
 *
 * How to link. `tools/archive` proves the library and writes target/staticlib/libpursegable.a, for x86-64; it needs
 * memcpy and memset of the C library, and nothing else. Beside the source, or installed by `tools/install PREFIX`:
 *     cc -Ic program.c target/staticlib/libpursegable.a
 *     cc program.c $(pkg-config --cflags --libs pursegable)
 *
 * What a caller owes. Every function is proved to end and to write nothing outside the buffers that it is lent, for any contents of
 * them. That needs of the caller, and nothing checks it:
 *   - a pointer points at as many elements as the length after it says (words, bytes or records, never bytes of words);
 *     with length 0 it may be anything but null, and must be aligned;
 *   - no buffer that is written overlaps another.
 * The same call with the same contents always leaves the same answer and the same contents.
 *
 * What a call takes. No function allocates, and none keeps anything: calls may run at once in any threads if what one writes no
 * other one is lent. What is lent may hold anything, but `work` is read before it is written: a memory checker complains of one
 * fresh from malloc, and not of one from calloc. The stack is below PURSEGABLE_STACK_LAYOUT and its likes, which stand with the sizes. */
#ifndef PURSEGABLE_H
#define PURSEGABLE_H

#include <stddef.h>
#include <stdint.h>

#ifdef __cplusplus
extern "C" {
#endif

/* The version of header and archive, which go together. The major number moves if a caller has to be changed or compiled again: a
 * record, a report or the counts have another size, or a function takes something else. The minor number moves if something is added,
 * or some input is answered otherwise. CHANGELOG.md has a line for each landing.
 *
 * A program that defines PURSEGABLE_WRITTEN_FOR as a major number before it includes this header doesn't compile with another. */
#define PURSEGABLE_VERSION_MAJOR 1
#define PURSEGABLE_VERSION_MINOR 2
#define PURSEGABLE_VERSION_PATCH 0
#define PURSEGABLE_VERSION "1.2.0"

#if defined(PURSEGABLE_WRITTEN_FOR) && PURSEGABLE_WRITTEN_FOR != PURSEGABLE_VERSION_MAJOR
#error "this program was written for another major version of pursegable: CHANGELOG.md says what changed"
#endif

/* ---- answers */

/* The answers, of every function. A layout answers 1 before all others; then of the nodes, from 0 up, the first of 2 to 5; then what the
 * run meets first of 6 to 9. A constructor's order is 1, 11, 3 or 5, 12, 10. Why answers 1 to 5 as a layout does, then 13 or what the run
 * up to the visit meets. */
enum {
    PURSEGABLE_OK = 0,           /* done */
    PURSEGABLE_BAD_SIZE = 1,     /* table empty, not a multiple of 4 words, or above 4,096 words; text or output above 65,536 bytes;
                                    events above 4,096 records; work below 16,384 words; width above 65,535; step limit above
                                    100,000,000; report below 5 words; constructors: counts below 3 words, or past the lent table
                                    or text; blocks: above 8 affixes, or lists of different lengths */
    PURSEGABLE_BAD_KIND = 2,     /* unknown kind, or an unused word not 0; constructors: unknown constructor */
    PURSEGABLE_BAD_CHILD = 3,    /* a child not below its parent; an amount above 1,000, or a way above 1 */
    PURSEGABLE_BAD_RANGE = 4,    /* a text's range leaves the text bytes */
    PURSEGABLE_BAD_TEXT = 5,     /* a text not well-formed UTF-8, with a line feed in it, or its columns wrong */
    PURSEGABLE_FAIL_MET = 6,     /* Fail met outside every trial */
    PURSEGABLE_NO_STEPS = 7,     /* a node is due and the steps equal the limit */
    PURSEGABLE_NO_OUTPUT = 8,    /* bytes don't fit the output */
    PURSEGABLE_NO_EVENTS = 9,    /* an event doesn't fit */
    PURSEGABLE_NO_NODES = 10,    /* constructors: nodes don't fit in 1,024 or in the lent table */
    PURSEGABLE_BAD_OPERAND = 11, /* constructors: an operand is no present node */
    PURSEGABLE_NO_TEXT = 12,     /* constructors: text bytes don't fit in 65,536 or in the lent text */
    PURSEGABLE_NO_VISIT = 13     /* why: the step is no visit of a Group met broken in layout */
};

/* An answer in words, for a message: static, and never null. */
static inline const char *pursegable_answer_text(uint32_t answer)
{
    switch (answer) {
    case PURSEGABLE_OK:
        return "done";
    case PURSEGABLE_BAD_SIZE:
        return "a size, the width or the step limit is out of range";
    case PURSEGABLE_BAD_KIND:
        return "a kind is unknown, or an unused word is not 0";
    case PURSEGABLE_BAD_CHILD:
        return "a child is not below its parent, or an amount is out of range";
    case PURSEGABLE_BAD_RANGE:
        return "a text's range leaves the text bytes";
    case PURSEGABLE_BAD_TEXT:
        return "a text is not well-formed UTF-8, has a line feed in it, or its columns are wrong";
    case PURSEGABLE_FAIL_MET:
        return "a Fail was met outside every trial";
    case PURSEGABLE_NO_STEPS:
        return "a node is due and the steps are used up";
    case PURSEGABLE_NO_OUTPUT:
        return "the bytes don't fit the output";
    case PURSEGABLE_NO_EVENTS:
        return "an event doesn't fit";
    case PURSEGABLE_NO_NODES:
        return "the nodes don't fit the table";
    case PURSEGABLE_BAD_OPERAND:
        return "an operand is no present node";
    case PURSEGABLE_NO_TEXT:
        return "the bytes don't fit the text";
    case PURSEGABLE_NO_VISIT:
        return "the step is no visit of a group met broken in layout";
    default:
        return "no answer of this version";
    }
}

/* ---- sizes */

#define PURSEGABLE_NODE_WORDS 4          /* words to a node */
#define PURSEGABLE_MOST_NODES 1024       /* nodes of a table */
#define PURSEGABLE_MOST_TABLE_WORDS 4096 /* words of a table */
#define PURSEGABLE_MOST_TEXT_BYTES 65536
#define PURSEGABLE_MOST_OUT_BYTES 65536
#define PURSEGABLE_MOST_EVENTS 4096      /* records of events */
#define PURSEGABLE_WORK_WORDS 16384      /* words of work that every call accepts; more are lawful */
#define PURSEGABLE_MOST_WIDTH 65535
#define PURSEGABLE_MOST_STEPS 100000000
#define PURSEGABLE_MOST_AMOUNT 1000      /* of nest, hang, indent and block */
#define PURSEGABLE_MOST_AFFIXES 8        /* of a block */
#define PURSEGABLE_SHEET_WIDTH 42        /* columns of pursegable_sheet */
#define PURSEGABLE_LABEL_WIDTH 42        /* columns of pursegable_label */
#define PURSEGABLE_DEFAULT_STEPS 1000000 /* step limit of both */

/* Bytes of stack that no call reaches: of layout, sheet and label, which keep the events' words there; of block; of every other
 * function, layout_words too. They took 49,953 bytes, 17,129 and 1,305 (layout_words 673), by tests/stack.c, which runs each call on a
 * stack that was painted before. */
#define PURSEGABLE_STACK_LAYOUT 51200
#define PURSEGABLE_STACK_BLOCK 20480
#define PURSEGABLE_STACK_OTHER 2048

/* ---- kinds */

/* A table is words, four to a node: kind, a, b, c. A child's number is below its parent's, nodes may be shared, and words that a kind
 * doesn't use are 0. The root is the last node of the table lent, so what is lent ends with the root: a buffer of zeros lent whole
 * ends with a Nil, and is laid out as nothing, with answer 0.
 *
 * A Text whose bytes are all below 128 has as many columns as bytes; with other bytes, any number from 0 to its bytes. Its bytes are
 * written as they stand. A Text with a line feed (byte 10) in it is refused, answer 5: every line feed in the output is a Hardline's. */
enum {
    PURSEGABLE_NIL = 0,       /* nothing */
    PURSEGABLE_APPEND = 1,    /* a first, b second */
    PURSEGABLE_GROUP = 2,     /* a child: flat if it fits, else broken */
    PURSEGABLE_FLAT_ALT = 3,  /* a when broken, b when flat */
    PURSEGABLE_NEST = 4,      /* a child, b amount 0 to 1,000, c adds or subtracts */
    PURSEGABLE_HARDLINE = 5,  /* a line end and the next node's indentation */
    PURSEGABLE_TEXT = 6,      /* a offset and b length of its bytes in the text, c columns */
    PURSEGABLE_ANNOTATED = 7, /* a child, b label, any word */
    PURSEGABLE_UNION = 8,     /* a first arm, b second arm, taken if the first ends past width */
    PURSEGABLE_ALIGN = 9,     /* a child, indented by the column */
    PURSEGABLE_FAIL = 10      /* gives the innermost first arm up */
};

/* The way of nest, hang and block: the amount is added, or subtracted, stopping at 0. */
#define PURSEGABLE_ADDS 0
#define PURSEGABLE_SUBTRACTS 1

/* ---- events */

/* An event: the output byte before which it stands, 1 opens or 0 closes, and the label of the annotation. */
typedef struct {
    uint32_t offset;
    uint32_t mark;
    uint32_t label;
} pursegable_event;

#define PURSEGABLE_OPENS 1
#define PURSEGABLE_CLOSES 0

/* Words to a record, for pursegable_layout_words. The type is there to be refused by the compiler if a record has others. */
#define PURSEGABLE_EVENT_WORDS 3
typedef char pursegable_event_is_its_words[sizeof(pursegable_event) == PURSEGABLE_EVENT_WORDS * sizeof(uint32_t) ? 1 : -1];

/* ---- layout */

/* A report's words. */
#define PURSEGABLE_REPORT_WORDS 5
#define PURSEGABLE_REPORT_ANSWER 0
#define PURSEGABLE_REPORT_PLACE 1
#define PURSEGABLE_REPORT_STEPS 2
#define PURSEGABLE_REPORT_BYTES 3
#define PURSEGABLE_REPORT_EVENTS 4

/* Lays a table out. Returns the answer.
 *
 * `report` gets the answer, the place, the steps, the used bytes and the used events, and zero in the rest of its words. The
 * place is the node at fault for 2 to 5, the node due for 7, the Annotated node for 9, else 0. Steps are told for 0 and 6 to
 * 9, and are 0 otherwise. On a refusal `out` and `events` are zero, and used bytes and events are 0; on 0 everything past
 * the used part is zero. `work` is zero after every call. A report below five words is answer 1, with it and every other
 * buffer zero. Table and text are only read. */
uint32_t pursegable_layout(const uint32_t *table, size_t table_len,
                           const uint8_t *text, size_t text_len,
                           uint32_t width, uint32_t limit,
                           uint8_t *out, size_t out_len,
                           pursegable_event *events, size_t events_len,
                           uint32_t *work, size_t work_len,
                           uint32_t *report, size_t report_len);

/* The whole sheet and the row label: pursegable_layout at PURSEGABLE_SHEET_WIDTH or PURSEGABLE_LABEL_WIDTH columns and
 * PURSEGABLE_DEFAULT_STEPS steps. They differ in name alone as long as strip and label stock are equally wide. */
uint32_t pursegable_sheet(const uint32_t *table, size_t table_len,
                          const uint8_t *text, size_t text_len,
                          uint8_t *out, size_t out_len,
                          pursegable_event *events, size_t events_len,
                          uint32_t *work, size_t work_len,
                          uint32_t *report, size_t report_len);

uint32_t pursegable_label(const uint32_t *table, size_t table_len,
                          const uint8_t *text, size_t text_len,
                          uint8_t *out, size_t out_len,
                          pursegable_event *events, size_t events_len,
                          uint32_t *work, size_t work_len,
                          uint32_t *report, size_t report_len);

/* As pursegable_layout, with the events as words, PURSEGABLE_EVENT_WORDS to a record (offset, mark, label): nothing is copied. The
 * length is in words; words left over after the last whole record are zeroed and not used. */
uint32_t pursegable_layout_words(const uint32_t *table, size_t table_len,
                                 const uint8_t *text, size_t text_len,
                                 uint32_t width, uint32_t limit,
                                 uint8_t *out, size_t out_len,
                                 uint32_t *events, size_t events_len,
                                 uint32_t *work, size_t work_len,
                                 uint32_t *report, size_t report_len);

/* ---- why a group broke */

/* The words of why's report, and its reasons. */
#define PURSEGABLE_WHY_ANSWER 0
#define PURSEGABLE_WHY_BROKEN 1 /* 0 flat, 1 broken */
#define PURSEGABLE_WHY_REASON 2
#define PURSEGABLE_WHY_NODE 3
#define PURSEGABLE_WHY_COLUMN 4

enum {
    PURSEGABLE_AT_FAIL = 1,         /* broken: a Fail */
    PURSEGABLE_HARDLINE_INSIDE = 2, /* broken: a Hardline inside the group */
    PURSEGABLE_TEXT_PAST = 3,       /* broken: a Text ending past the width */
    PURSEGABLE_NOTHING_LEFT = 4,    /* flat: nothing was left */
    PURSEGABLE_HARDLINE_AFTER = 5   /* flat: a Hardline after the group */
};

/* Why the Group that is visited at a step goes flat or broken. Returns the answer.
 *
 * It takes what pursegable_layout_words takes, and a step number, which names a visit of that run: 1 is the root's. If that visit is a
 * Group met broken in layout, in a trial too, the answer is 0, and `report` gets 0 or 1 (flat or broken), the reason, the node and the
 * column: those of the first node that the group's fit test meets that breaks it or ends it flat. The column is that reached at the
 * node, for a Text at its end; flat gives column 0, and nothing left gives node 0. The limit counts only up to the visit, so the two
 * may be equal, and the time doesn't grow with what the group unfolds to.
 *
 * A step that is no such visit is PURSEGABLE_NO_VISIT, 0 too; a run that ends before that step gives its own 6 to 9, or
 * PURSEGABLE_NO_VISIT if it ends with 0. With a refusal every other word is 0. `out`, `events` and `work` are zero after every call;
 * a report below five words is answer 1, as with pursegable_layout. */
uint32_t pursegable_why(const uint32_t *table, size_t table_len,
                        const uint8_t *text, size_t text_len,
                        uint32_t width, uint32_t limit, uint32_t step,
                        uint8_t *out, size_t out_len,
                        uint32_t *events, size_t events_len,
                        uint32_t *work, size_t work_len,
                        uint32_t *report, size_t report_len);

/* ---- constructors
 *
 * Each adds nodes to the table and bytes to the text, and returns the answer. A refusal leaves table, text and counts as they were.
 * A node made may be an older one. Node n is laid out by lending the table up to it, 4 * (n + 1) words, and the text bytes in use. */

/* The words of the counts: the nodes in use, the text bytes in use (both 0 to begin with), and the node that was made. Words past the
 * third are left alone. */
#define PURSEGABLE_COUNTS_WORDS 3
#define PURSEGABLE_COUNTS_NODES 0
#define PURSEGABLE_COUNTS_BYTES 1
#define PURSEGABLE_COUNTS_MADE 2

/* What pursegable_make makes: any kind but Text, with its words as operands, and these. An operand that a constructor doesn't use
 * is not looked at. */
enum {
    PURSEGABLE_ANNOTATE = 7,   /* as PURSEGABLE_ANNOTATED */
    PURSEGABLE_SPACE = 11,     /* a Text of one blank */
    PURSEGABLE_LINE = 12,      /* a Hardline, a blank when flat */
    PURSEGABLE_LINE_ = 13,     /* a Hardline, nothing when flat */
    PURSEGABLE_SOFTLINE = 14,  /* a group of a line */
    PURSEGABLE_SOFTLINE_ = 15, /* a group of a line_ */
    PURSEGABLE_HANG = 16,      /* a child, b amount, c adds or subtracts */
    PURSEGABLE_INDENT = 17,    /* a child, b amount */
    PURSEGABLE_ENCLOSE = 18    /* a child, b before it, c after it */
};

uint32_t pursegable_make(uint32_t what, uint32_t a, uint32_t b, uint32_t c,
                         uint32_t *table, size_t table_len,
                         uint8_t *text, size_t text_len,
                         uint32_t *counts, size_t counts_len);

/* A Text of these bytes, so many columns wide; of no bytes a Nil. */
uint32_t pursegable_text(const uint8_t *bytes, size_t bytes_len, uint32_t columns,
                         uint32_t *table, size_t table_len,
                         uint8_t *text, size_t text_len,
                         uint32_t *counts, size_t counts_len);

/* The nodes joined; of none a Nil. */
uint32_t pursegable_concat(const uint32_t *nodes, size_t nodes_len,
                           uint32_t *table, size_t table_len,
                           const uint8_t *text, size_t text_len,
                           uint32_t *counts, size_t counts_len);

/* The nodes joined with the separator between each two; of none a Nil. */
uint32_t pursegable_intersperse(const uint32_t *nodes, size_t nodes_len, uint32_t separator,
                                uint32_t *table, size_t table_len,
                                const uint8_t *text, size_t text_len,
                                uint32_t *counts, size_t counts_len);

/* The block layouts of a body between affixes: all prefixes on one line, else fewer of them, and at last only the first.
 *
 * The affixes come as three lists of one length: the prefix of each and its suffix, which are nodes, and a flag, a byte not 0
 * if the affix is nested by the amount where its prefix is not on that line. The body is always nested by it; way 0 adds, 1
 * subtracts. No affixes give the body and build nothing; body and amount are looked at all the same.
 *
 * Suffixes are printed in the order of their list, not from the inside out: those of the affixes below the first line, then those of
 * the affixes on it. */
uint32_t pursegable_block(uint32_t body, uint32_t amount, uint32_t way,
                          const uint32_t *prefixes, size_t prefixes_len,
                          const uint32_t *suffixes, size_t suffixes_len,
                          const uint8_t *nests, size_t nests_len,
                          uint32_t *table, size_t table_len,
                          const uint8_t *text, size_t text_len,
                          uint32_t *counts, size_t counts_len);

#ifdef __cplusplus
}
#endif

#endif
