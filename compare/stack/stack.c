/* How much stack each call of the library takes: it runs on a stack of its own, filled with one byte before, and the lowest byte
 * that changed is sought afterwards. The deepest nesting, 64, is made of each construct alone and of bodies around groups. */
#include <stdio.h>
#include <stdlib.h>
#include <string.h>
#include <ucontext.h>

#include "spoonharbor.h"

enum { STACK_BYTES = 1 << 20, FILLED = 0xA5, MOST_BYTES = 4096, ROWS = MOST_BYTES + 1, DEPTH = 64 };

static unsigned char *stack;
static ucontext_t caller, callee;

static uint8_t text[MOST_BYTES + 1];
static size_t length;
static uint32_t rows[ROWS * SH_ROW_WORDS], new_rows[ROWS * SH_ROW_WORDS], nodes[ROWS * SH_NODE_WORDS];
static uint32_t table[SH_WORDS], answer[SH_WORDS];
static uint8_t file[SH_FILE_ROOM(ROWS)];

static void nothing(void) {}

/* The calls. Each leaves 0 in its answer's first word if it went well; a scan's answer is the table. */

static void scan(void) { spoonharbor_scan(text, length, rows, ROWS * SH_ROW_WORDS, table); }

static uint32_t node_count;

static void parse(void) {
    spoonharbor_parse(text, length, rows, ROWS * SH_ROW_WORDS, table, nodes, ROWS * SH_NODE_WORDS, answer);
    node_count = answer[SH_COUNT];
}

static uint32_t scratch[SH_SCRATCH_WORDS];
static uint8_t room[2 * MOST_BYTES];

/* Of the nodes of the parse before. */
static void layout(void) {
    spoonharbor_layout(text, length, rows, ROWS * SH_ROW_WORDS, table, nodes, ROWS * SH_NODE_WORDS, node_count, scratch, room, sizeof room,
                       answer);
}

static uint64_t tallied[SH_TALLY_COUNTS], joined[SH_TALLY_COUNTS];

/* Of the same nodes. */
static void tally(void) { answer[SH_NUMBER] = spoonharbor_tally(nodes, ROWS * SH_NODE_WORDS, node_count, tallied); }

static void join(void) { answer[SH_NUMBER] = spoonharbor_join(tallied, tallied, joined); }

static void edit(void) {
    spoonharbor_edit(rows, ROWS * SH_ROW_WORDS, table, 0, 0, 0, 0, text, length, new_rows, ROWS * SH_ROW_WORDS, answer);
}

static void change(void) {
    spoonharbor_change(rows, ROWS * SH_ROW_WORDS, table, 0, 0, 0, text, length, new_rows, ROWS * SH_ROW_WORDS, answer);
}

static void restart(void) { spoonharbor_restart(rows, ROWS * SH_ROW_WORDS, table, 0, answer); }

static void well_formed(void) { answer[SH_NUMBER] = !spoonharbor_well_formed(rows, ROWS * SH_ROW_WORDS, table); }

static void spelling(void) { spoonharbor_spelling(text, length, rows, ROWS * SH_ROW_WORDS, table, 0, answer); }

static void allows(void) { spoonharbor_allows(SH_PROGRAM_KIND_RAW_TRACEPOINT, 0, answer); }

static void set_size(void) { spoonharbor_set_size(SH_PROGRAM_KIND_RAW_TRACEPOINT, answer); }

static const uint8_t named[] = "raw_tracepoint/sys_enter";

static void section_kind(void) { answer[SH_NUMBER] = spoonharbor_section_kind(named, sizeof named - 1) != SH_PROGRAM_KIND_RAW_TRACEPOINT; }

static void store(void) { spoonharbor_store(rows, ROWS * SH_ROW_WORDS, table, file, sizeof file, answer); }

static void load(void) { spoonharbor_load(file, SH_FILE_ROOM(table[SH_COUNT]), new_rows, ROWS * SH_ROW_WORDS, answer); }

static uint8_t moved[SH_SHORT_FILE_ROOM(ROWS)];
static uint32_t blocks[sizeof moved / 512 + 1];

static void move(void) {
    spoonharbor_move(text, length, file, SH_FILE_ROOM(table[SH_COUNT]), SH_FORM_SHORT, moved, sizeof moved, answer);
}

static void load_beside(void) {
    spoonharbor_load_beside(text, length, moved, SH_SHORT_FILE_ROOM(table[SH_COUNT]), new_rows, ROWS * SH_ROW_WORDS, answer);
}

/* Over nothing, so that every block is written. */
static void mend(void) {
    spoonharbor_mend(text, length, SH_FORM_SHORT, moved, sizeof moved, 0, blocks, sizeof blocks / sizeof *blocks, answer);
}

static void version(void) { answer[SH_NUMBER] = spoonharbor_version() != SPOONHARBOR_VERSION; }

/* Each by its name without `spoonharbor_`. */
static const struct {
    const char *name;
    void (*call)(void);
} calls[] = {
    {"scan", scan},
    {"parse", parse},
    {"layout", layout},
    {"tally", tally},
    {"join", join},
    {"edit", edit},
    {"change", change},
    {"restart", restart},
    {"well_formed", well_formed},
    {"spelling", spelling},
    {"section_kind", section_kind},
    {"allows", allows},
    {"set_size", set_size},
    {"store", store},
    {"load", load},
    {"move", move},
    {"load_beside", load_beside},
    {"mend", mend},
    {"version", version},
};

/* How many bytes of the stack a call takes. */
static size_t used_by(void (*call)(void)) {
    memset(stack, FILLED, STACK_BYTES);
    if (getcontext(&callee) != 0) exit(2);
    callee.uc_stack.ss_sp = stack;
    callee.uc_stack.ss_size = STACK_BYTES;
    callee.uc_link = &caller;
    makecontext(&callee, call, 0);
    if (swapcontext(&caller, &callee) != 0) exit(2);
    size_t lowest = 0;
    while (lowest < STACK_BYTES && stack[lowest] == FILLED) lowest++;
    return STACK_BYTES - lowest;
}

static void put(const char *part) {
    size_t more = strlen(part);
    if (length + more > MOST_BYTES) exit(2);
    memcpy(text + length, part, more);
    length += more;
}

/* A unit with `bodies` bodies around `others` constructs of another sort around a variable. */
static void nest(const char *body, int bodies, const char *opening, const char *closing, int others) {
    length = 0;
    put("unit u{");
    for (int i = 0; i < bodies; i++) put(body);
    for (int i = 0; i < others; i++) put(opening);
    put("x");
    for (int i = 0; i < others; i++) put(closing);
    put(";");
    for (int i = 0; i < bodies; i++) put("}");
    put("}");
}

/* A line with the bytes that each call takes, in the order of `calls`: a file is stored before it is loaded, and moved before it is mended. */
static void report(const char *what) {
    size_t empty = used_by(nothing);
    printf("%s:", what);
    for (size_t i = 0; i < sizeof calls / sizeof *calls; i++) {
        size_t used = used_by(calls[i].call) - empty;
        if (table[SH_NUMBER] != 0 || answer[SH_NUMBER] != 0) exit(1);
        printf("%s %s %zu", i == 0 ? "" : ",", calls[i].name, used);
    }
    printf(" bytes of stack\n");
}

int main(void) {
    stack = malloc(STACK_BYTES);
    if (stack == NULL) return 2;
    nest("", 0, "", "", 0);
    report("no nesting");
    nest("", 0, "(", ")", DEPTH);
    report("64 groups");
    nest("", 0, "z.w(", ")", DEPTH);
    report("64 argument lists");
    nest("", 0, "*", "", DEPTH);
    report("64 stars");
    nest("if guard(a){", DEPTH, "", "", 0);
    report("64 then bodies");
    nest("if guard(a){}else{", DEPTH, "", "", 0);
    report("64 else bodies");
    nest("if guard(a){}else{", DEPTH / 2, "z.w(", ")", DEPTH / 2);
    report("32 else bodies around 32 argument lists");
    nest("if guard(a){}else{", DEPTH / 2, "(*", ")", DEPTH / 4);
    report("32 else bodies around 16 groups with stars");
    return 0;
}
