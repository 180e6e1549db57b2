/* Scans a text, edits and changes it, parses it, lays it out, counts it, and prints what comes of each. Every call is here; C++ takes the file too. Installed:
 *
 *     cc include/example.c $(pkg-config --cflags --libs spoonharbor) -o example && ./example
 */
#include <inttypes.h>
#include <stdio.h>
#include <string.h>

#include "spoonharbor.h"

/* Few bytes for the first window, so that it is seen to grow; 256 is a good number for an editor. */
enum { FIRST_WINDOW = 1, WINDOW_GROWTH = 4 };

/* Words for the rows and nodes of any text. */
enum { ROW_ROOM = SH_ROW_ROOM(SH_LONGEST_TEXT), NODE_ROOM = SH_NODE_ROOM(SH_LONGEST_TEXT + 1) };

/* A text with its rows, and what stands beside them. */
struct document {
    uint8_t text[SH_LONGEST_TEXT];
    size_t length;
    uint32_t rows[ROW_ROOM];
    uint32_t table[SH_WORDS];
};

/* The open document, and the one that the next edit or change writes. */
static struct document documents[2];
static struct document *opened = &documents[0], *spare = &documents[1];

static void open_text(const char *text) {
    opened->length = strlen(text);
    memcpy(opened->text, text, opened->length);
    spoonharbor_scan(opened->text, opened->length, opened->rows, ROW_ROOM, opened->table);
}

/* The new text of a document in which bytes a to b became `with`. */
static void write_changed(uint32_t a, uint32_t b, const char *with, uint32_t n) {
    memcpy(spare->text, opened->text, a);
    memcpy(spare->text + a, with, n);
    memcpy(spare->text + a + n, opened->text + b, opened->length - b);
    spare->length = opened->length - (b - a) + n;
}

/* Whether bytes a to b of the open document can become n others; if not, why. */
static uint32_t refused(uint32_t a, uint32_t b, uint32_t n) {
    if (a > b || b > opened->length) return SH_REFUSED_EDIT_NOT_SENSIBLE;
    return opened->length - (b - a) + n > SH_LONGEST_TEXT ? SH_REFUSED_TEXT_TOO_LONG : 0;
}

/* What was written is opened, if it has rows. Gives back the refusal number; below 11 the document is as it was. */
static uint32_t open_spare(void) {
    uint32_t number = spare->table[SH_NUMBER];
    if (number == 0 || number >= SH_REFUSED_NO_ROW_BEGINS) {
        struct document *old = opened;
        opened = spare;
        spare = old;
    }
    return number;
}

/* Bytes a to b become `with`, by the whole new text: one call. */
static uint32_t change(uint32_t a, uint32_t b, const char *with) {
    uint32_t n = (uint32_t)strlen(with);
    if (refused(a, b, n) != 0) return refused(a, b, n);
    write_changed(a, b, with, n);
    spoonharbor_change(opened->rows, ROW_ROOM, opened->table, a, b, n, spare->text, spare->length, spare->rows, ROW_ROOM, spare->table);
    return open_spare();
}

/* Bytes a to b become `with`, by a part of the new text. The window starts at the restart place; as long as it is short it shows four times
 * as much behind the new bytes, up to the text's end, where it is never short. */
static uint32_t replace(uint32_t a, uint32_t b, const char *with) {
    uint32_t n = (uint32_t)strlen(with);
    uint32_t restart[SH_WORDS];
    spoonharbor_restart(opened->rows, ROW_ROOM, opened->table, a, restart);
    if (restart[SH_NUMBER] != 0) return restart[SH_NUMBER];
    if (refused(a, b, n) != 0) return refused(a, b, n);
    write_changed(a, b, with, n);

    uint32_t start = restart[SH_OFFSET];
    size_t window, behind = FIRST_WINDOW;
    int calls = 0;
    do {
        size_t end = a + n + behind < spare->length ? a + n + behind : spare->length;
        window = end - start;
        spoonharbor_edit(opened->rows, ROW_ROOM, opened->table, a, b, n, start, spare->text + start, window, spare->rows, ROW_ROOM,
                         spare->table);
        behind *= WINDOW_GROWTH;
        calls++;
    } while (spare->table[SH_NUMBER] == SH_REFUSED_WINDOW_SHORT);
    printf("edit: %zu window bytes from %" PRIu32 " suffice, calls %d\n", window, start, calls);
    return open_spare();
}

/* A refusal's line, if the answer is one. */
static void print_refusal(const uint32_t answer[SH_WORDS]) {
    if (answer[SH_NUMBER] != 0) {
        printf("refused %" PRIu32 " at %" PRIu32 ", line %" PRIu32 ", column %" PRIu32 "\n", answer[SH_NUMBER], answer[SH_OFFSET],
               answer[SH_LINE], answer[SH_COLUMN]);
    }
}

static void print_rows(void) {
    uint32_t count = opened->table[SH_COUNT];
    printf("rows %" PRIu32 ", well formed %" PRIu32 "\n", count, spoonharbor_well_formed(opened->rows, ROW_ROOM, opened->table));
    for (uint32_t row = 0; row < count; row++) {
        const uint32_t *words = opened->rows + row * SH_ROW_WORDS;
        uint32_t part[SH_WORDS];
        spoonharbor_spelling(opened->text, opened->length, opened->rows, ROW_ROOM, opened->table, row, part);
        printf("%" PRIu32 " kind %" PRIu32 " at %" PRIu32 ":%" PRIu32 " %.*s\n", row, words[SH_ROW_KIND], words[SH_ROW_LINE],
               words[SH_ROW_COLUMN], (int)(part[SH_SECOND] - part[SH_FIRST]), (const char *)opened->text + part[SH_FIRST]);
    }
    print_refusal(opened->table);
}

/* The row kinds that would have fitted where another was wanted, and the one that was found. */
static void print_fitting(const uint32_t answer[SH_WORDS]) {
    if (answer[SH_NUMBER] != SH_REFUSED_WANTED) return;
    printf("fitting");
    for (uint32_t kind = 0; kind <= SH_ROW_KIND_EOF; kind++) {
        if (SH_FITS(answer, kind)) printf(" %" PRIu32, kind);
    }
    printf(", found %" PRIu32 "\n", answer[SH_LENGTH]);
}

/* The nodes of the last parse, and how many there are. */
static uint32_t nodes[NODE_ROOM], node_count;

static void print_nodes(void) {
    uint32_t answer[SH_WORDS];
    spoonharbor_parse(opened->text, opened->length, opened->rows, ROW_ROOM, opened->table, nodes, NODE_ROOM, answer);
    print_refusal(answer);
    print_fitting(answer);
    node_count = answer[SH_COUNT];
    printf("nodes %" PRIu32 "\n", node_count);
    for (uint32_t node = 0; node < node_count; node++) {
        for (int word = 0; word < SH_NODE_WORDS; word++) {
            printf("%s%" PRIu32, word == 0 ? "" : " ", nodes[node * SH_NODE_WORDS + word]);
        }
        printf("\n");
    }
}

/* The open document in its one layout, after a parse of it. The call makes a scan and a parse of its own in the scratch. */
static void print_layout(void) {
    static uint32_t scratch[SH_SCRATCH_WORDS];
    static uint8_t room[SH_LONGEST_TEXT];
    uint32_t answer[SH_WORDS];
    spoonharbor_layout(opened->text, opened->length, opened->rows, ROW_ROOM, opened->table, nodes, NODE_ROOM, node_count, scratch, room,
                       sizeof room, answer);
    printf("layout: number %" PRIu32 ", %" PRIu32 " bytes\n%.*s", answer[SH_NUMBER], answer[SH_LENGTH], (int)answer[SH_LENGTH],
           (const char *)room);
}

/* A section's kind, and what that allows. */
static void print_methods(const char *section) {
    uint32_t kind = spoonharbor_section_kind((const uint8_t *)section, strlen(section));
    uint32_t size[SH_WORDS], allowed[SH_WORDS];
    spoonharbor_set_size(kind, size);
    spoonharbor_allows(kind, SH_METHOD_LOAD_U64, allowed);
    printf("%s: kind %" PRIu32 ", %" PRIu32 " methods, load_u64 %" PRIu32 "\n", section, kind, size[SH_FIRST], allowed[SH_FIRST]);
}

/* A long text, in which a comment is opened and closed: the window has to reach the text's end, and a change needs none. */
static void open_comment(void) {
    static char text[60001];
    memset(text, ';', 60000);
    open_text(text);
    printf("open a comment in 60000 bytes: %" PRIu32 "\n", replace(0, 0, "/*"));
    print_rows();
    printf("close it behind 59998 of them: %" PRIu32 "\n", change(60000, 60000, "*/"));
    print_rows();
    printf("change 60005 to 60005: %" PRIu32 "\n", change(60005, 60005, "x"));
}

/* A text with characters of several bytes, which columns count one by one; and one that ends inside such a character. */
static void open_characters(void) {
    open_text("/* 0.1\xC2\xB0 */ \"\xCE\xA9\" @");
    print_rows();
    open_text("\"\xCE");
    print_rows();
}

/* A file moved to the second form, read beside its text, and mended where it is damaged. */
static void move_and_mend(const uint8_t *file, size_t length) {
    static uint8_t moved[SH_SHORT_FILE_ROOM(9)];
    static uint32_t rows[9 * SH_ROW_WORDS];
    uint32_t told[SH_WORDS], blocks[1];
    spoonharbor_move(opened->text, opened->length, file, length, SH_FORM_SHORT, moved, sizeof moved, told);
    printf("moved: %" PRIu32 " blocks, %" PRIu32 " bytes\n", told[SH_COUNT], told[SH_LENGTH]);
    uint32_t size = told[SH_LENGTH];
    spoonharbor_load_beside(opened->text, opened->length, moved, size, rows, 9 * SH_ROW_WORDS, told);
    printf("loaded beside the text: %" PRIu32 " rows, number %" PRIu32 "\n", told[SH_COUNT], told[SH_NUMBER]);
    moved[600] ^= 1;
    spoonharbor_mend(opened->text, opened->length, SH_FORM_SHORT, moved, sizeof moved, size, blocks, 1, told);
    printf("mended: %" PRIu32 " of %" PRIu32 " bytes, block %" PRIu32 "\n", told[SH_COUNT], told[SH_LENGTH], blocks[0]);
}

/* What is counted of the open document, added to another tally. A sum that passes 64 bits is refused, and the first tally stays. */
static void print_tally(void) {
    static uint32_t nodes[NODE_ROOM];
    uint32_t told[SH_WORDS];
    uint64_t tally[SH_TALLY_COUNTS], joined[SH_TALLY_COUNTS], most[SH_TALLY_COUNTS];
    spoonharbor_parse(opened->text, opened->length, opened->rows, ROW_ROOM, opened->table, nodes, NODE_ROOM, told);
    uint32_t number = spoonharbor_tally(nodes, NODE_ROOM, told[SH_COUNT], tally);
    printf("tally: number %" PRIu32 ", unknown units %" PRIu64 ", statements %" PRIu64 ", methods %" PRIu64 "\n", number,
           tally[SH_TALLY_UNITS + SH_PROGRAM_KIND_UNKNOWN], tally[SH_TALLY_STATEMENTS], tally[SH_TALLY_METHODS]);
    number = spoonharbor_join(tally, tally, joined);
    printf("joined: number %" PRIu32 ", statements %" PRIu64 "\n", number, joined[SH_TALLY_STATEMENTS]);
    for (int i = 0; i < SH_TALLY_COUNTS; i++) most[i] = UINT64_MAX;
    number = spoonharbor_join(tally, most, joined);
    printf("joined: number %" PRIu32 ", statements %" PRIu64 "\n", number, joined[SH_TALLY_STATEMENTS]);
}

/* The table as a file, read back, and with one of its bytes changed. */
static void store_and_load(void) {
    static uint8_t file[SH_FILE_ROOM(9)];
    static uint32_t rows[9 * SH_ROW_WORDS];
    uint32_t stored[SH_WORDS], loaded[SH_WORDS];
    spoonharbor_store(opened->rows, ROW_ROOM, opened->table, file, sizeof file, stored);
    printf("stored: %" PRIu32 " blocks, %" PRIu32 " bytes\n", stored[SH_COUNT], stored[SH_LENGTH]);
    spoonharbor_load(file, stored[SH_LENGTH], rows, 9 * SH_ROW_WORDS, loaded);
    printf("loaded: %" PRIu32 " rows, number %" PRIu32 "\n", loaded[SH_COUNT], loaded[SH_NUMBER]);
    move_and_mend(file, stored[SH_LENGTH]);
    file[600] ^= 1;
    spoonharbor_load(file, stored[SH_LENGTH], rows, 9 * SH_ROW_WORDS, loaded);
    printf("changed: %" PRIu32 " in block %" PRIu32 "\n", loaded[SH_NUMBER], loaded[SH_FIRST]);
}

int main(void) {
    if (spoonharbor_version() != SPOONHARBOR_VERSION) {
        fprintf(stderr, "the archive is another version's than the header\n");
        return 2;
    }
    open_text("unit u{\n x+=-1;\n}\n");
    print_rows();
    print_nodes();
    print_layout();
    print_tally();
    store_and_load();

    printf("replace 13 to 14 by 12: %" PRIu32 "\n", replace(13, 14, "12"));
    print_rows();
    print_nodes();

    printf("replace 14 to 15 by a quote: %" PRIu32 "\n", replace(14, 15, "\""));
    print_rows();
    print_nodes();

    printf("replace 99 to 99: %" PRIu32 "\n", replace(99, 99, "x"));
    open_text("unit u{ a + b }");
    print_nodes();
    open_characters();
    open_comment();
    print_methods("kprobe/encoder_read");
    return 0;
}
