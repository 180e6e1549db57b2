/* Spoonharbor's calls for C, C++ and Rust: scan, parse and edit Solnix probes.
 *
 * `./install --prefix DIR` installs this header, the archive and a pkg-config file; a program then is built by
 *
 *     cc program.c $(pkg-config --cflags --libs spoonharbor)
 *
 * Without installing, link with what `tools/archive` writes: target/staticlib/libspoonharbor.a on x86-64, on another
 * processor target/staticlib/PROCESSOR/libspoonharbor.a. The archive calls memcpy and memset and nothing else that
 * is not in it: any C library has the two, and a program that is linked with -nostdlib brings its own. `./install`
 * makes a shared library too. `example.c` shows every call, and `example.py` the same from Python.
 *
 * The papers that this header names are docs/LANGUAGE.md, which says what is read and answered, and docs/SPEED.md.
 * `./install` puts them into DIR/share/doc/spoonharbor.
 *
 * Every call answers for every argument, reads and writes only what it is lent, and keeps nothing, so calls on
 * different memory may run at the same time. Parts of memory that are lent for writing must overlap neither each
 * other nor what is lent for reading. A length of 0 is fine (with any pointer that is not null). Lengths of rows and
 * nodes are lent in words, not in rows or bytes: each parameter whose name ends in `_words` is SH_ROW_WORDS or
 * SH_NODE_WORDS times a number of rows or nodes (but `block_words`, of numbers of one word). Words that are left
 * over are never written.
 *
 * Texts are UTF-8, and all of a text is judged before any of it is read. Offsets, lengths and columns count bytes,
 * so an editor that shows a caret counts characters for itself. Rows of a scanned text start and end between
 * characters; so does the restart place of an edit. A table that no text has may be well formed and have rows that
 * cut one: what such a row spells are bytes.
 *
 * An answer is eight words, always all written. A table (what stands beside rows) is lent in the words in which a
 * scan, a change, an edit or the reading of a file told it, so keep them as they are. Words whose first is neither 0
 * nor 11 to 17 tell no table: every call that is lent them answers 3.
 *
 * A table is *well formed* if the words of all SH_COUNT rows are lent and all of this holds. The length is at most
 * SH_LONGEST_TEXT. Each kind is one that is made. A value is 0 unless the row is a number's, and never -2^63. Each
 * row is as long as its kind is spelt: words and signs exactly, names and numbers 1 byte or more, strings 2 or more,
 * Eof 0. Rows stand in order and do not overlap. Lines and columns are at least 1 and at most the start + 1, lines
 * do not fall, and on one line columns differ as starts do. Comments are at most half of the gap in front, rounded
 * down. If no refusal ends the table, Eof is the last row, at the length, and no other row is Eof; if one does, no
 * row is Eof, and its place is where a next row could start. Nothing is held against a text (docs/LANGUAGE.md, 7.2).
 *
 * Room. A text of n bytes has at most n + 1 rows, since every row but the text's end has a byte: SH_ROW_ROOM(n)
 * words hold them. A tree has at most as many nodes as the text has rows: SH_NODE_ROOM(rows) words suffice, and a
 * parse asks for them.
 *
 * Stack. No call allocates. As measured on x86-64 and on Arm, a parse takes up to 20 KiB of stack where 64
 * constructs are open, and so does a layout, which parses; a mending takes under 3 KiB and every other call under
 * 2 KiB; 64 KiB are enough for any (docs/SPEED.md has the figures).
 */
#ifndef SPOONHARBOR_H
#define SPOONHARBOR_H

#include <stddef.h>
#include <stdint.h>

#ifdef __cplusplus
extern "C" {
#endif

/* This header's version, a byte for each part. `spoonharbor_version()` tells the archive's: hold them together once
 * at the start. */
#define SPOONHARBOR_VERSION_MAJOR 0
#define SPOONHARBOR_VERSION_MINOR 9
#define SPOONHARBOR_VERSION_PATCH 0
#define SPOONHARBOR_VERSION (SPOONHARBOR_VERSION_MAJOR * 65536u + SPOONHARBOR_VERSION_MINOR * 256u + SPOONHARBOR_VERSION_PATCH)

/* The most bytes that a text may have. */
enum { SH_LONGEST_TEXT = 65536 };

/* The words of a scratch for `spoonharbor_layout`: those of the rows, or of the nodes, of the longest text. */
enum { SH_SCRATCH_WORDS = 524296 };

/* The words of an answer. */
enum sh_answer_word {
    SH_NUMBER = 0, /* refusal number, 0 if none */
    SH_OFFSET = 1, /* the refusal's place: offset, line and column; 0 1 1 where the place is 0; beside number 0 the
                    * restart place, else all 0 */
    SH_LINE = 2,
    SH_COLUMN = 3, /* one more than the bytes since the last newline: characters of two to four bytes count two to four, a tab one */
    SH_FIRST = 4,  /* refusals that tell kinds: those of 0 to 31; SH_REFUSED_MAP_LACKS: the field; SH_FILE_BAD_BLOCK: the block;
                    * spelling: start; sets: the number */
    SH_SECOND = 5, /* refusals that tell kinds: those of 32 to 52; spelling: end */
    SH_COUNT = 6,  /* rows, nodes or blocks written; mend: blocks listed */
    SH_LENGTH = 7, /* scan, change, edit, load: the text's length; 0 where refused below 11 or from 40 on; store, move, mend: the file's
                    * length; layout: the bytes written; SH_REFUSED_WANTED: the kind that was found */
    SH_WORDS = 8
};

/* The words of a row. Offsets count from 0, lines and columns from 1, and columns count bytes; the end is the offset
 * behind the last byte. The value is 64-bit two's complement, zero unless the kind is a number. The comments are
 * those between the row and the one before it, or the text's start; Eof has a count too, so that the counts of a
 * text that scans to its end add up to its comments. */
enum sh_row_word {
    SH_ROW_KIND = 0,
    SH_ROW_START = 1,
    SH_ROW_END = 2,
    SH_ROW_LINE = 3,
    SH_ROW_COLUMN = 4,
    SH_ROW_VALUE_LOW = 5,
    SH_ROW_VALUE_HIGH = 6,
    SH_ROW_COMMENTS = 7,
    SH_ROW_WORDS = 8
};

/* How many words hold the rows of a text of so many bytes, whatever it says. */
#define SH_ROW_ROOM(bytes) (((size_t)(bytes) + 1) * SH_ROW_WORDS)

/* Row kinds. 16 to 20 are never made. */
enum sh_row_kind {
    SH_ROW_KIND_UNIT = 0,
    SH_ROW_KIND_SECTION = 1,
    SH_ROW_KIND_LICENSE = 2,
    SH_ROW_KIND_RETURN = 3,
    SH_ROW_KIND_REG = 4,
    SH_ROW_KIND_IMM = 5,
    SH_ROW_KIND_MAP = 6,
    SH_ROW_KIND_TYPE = 7,
    SH_ROW_KIND_KEY = 8,
    SH_ROW_KIND_VALUE = 9,
    SH_ROW_KIND_MAX = 10,
    SH_ROW_KIND_IF = 11,
    SH_ROW_KIND_ELSE = 12,
    SH_ROW_KIND_GUARD = 13,
    SH_ROW_KIND_HEAP = 14,
    SH_ROW_KIND_EVENT = 15,
    SH_ROW_KIND_TYPE_U32 = 21,
    SH_ROW_KIND_TYPE_U64 = 22,
    SH_ROW_KIND_TYPE_I32 = 23,
    SH_ROW_KIND_TYPE_I64 = 24,
    SH_ROW_KIND_LBRACE = 25,         /* { */
    SH_ROW_KIND_RBRACE = 26,         /* } */
    SH_ROW_KIND_LPAREN = 27,         /* ( */
    SH_ROW_KIND_RPAREN = 28,         /* ) */
    SH_ROW_KIND_COLON = 29,          /* : */
    SH_ROW_KIND_DOT = 30,            /* . */
    SH_ROW_KIND_COMMA = 31,          /* , */
    SH_ROW_KIND_SEMICOLON = 32,      /* ; */
    SH_ROW_KIND_LBRACKET = 33,       /* [ */
    SH_ROW_KIND_RBRACKET = 34,       /* ] */
    SH_ROW_KIND_EQUALS = 35,         /* = */
    SH_ROW_KIND_PLUS_EQUALS = 36,    /* += */
    SH_ROW_KIND_MINUS_EQUALS = 37,   /* -= */
    SH_ROW_KIND_STAR_EQUALS = 38,    /* *= */
    SH_ROW_KIND_SLASH_EQUALS = 39,   /* a slash and = */
    SH_ROW_KIND_PERCENT_EQUALS = 40, /* %= */
    SH_ROW_KIND_PLUS = 41,           /* + */
    SH_ROW_KIND_MINUS = 42,          /* - */
    SH_ROW_KIND_STAR = 43,           /* * */
    SH_ROW_KIND_SLASH = 44,          /* a slash */
    SH_ROW_KIND_PERCENT = 45,        /* % */
    SH_ROW_KIND_SHR = 46,            /* >> */
    SH_ROW_KIND_SHL = 47,            /* << */
    SH_ROW_KIND_IDENTIFIER = 48,
    SH_ROW_KIND_STRING_LITERAL = 49,
    SH_ROW_KIND_NUMBER = 50,
    SH_ROW_KIND_BYTES = 51,
    SH_ROW_KIND_EOF = 52 /* the text's end */
};

/* The words of a node. Place and name are row numbers; a row that is missing is SH_MISSING. Children precede their
 * parent, in text order, and the program is last. Facts that a kind does not have are 0.
 *
 * Which row is a node's place, by its kind:
 *
 *   variable, number                        its own row
 *   dereference                             that of what is dereferenced, not the star
 *   add to shr, assign, add-assign          that of the left side
 *   call                                    that of the receiver
 *   field, reg, imm, heap, event field,     the name
 *   event, map
 *   expression                              that of the expression
 *   return                                  the row after `return`
 *   if                                      `guard`
 *   then, else                              its `{`
 *   section, license                        the string
 *   unit                                    `unit`
 *   program                                 Eof
 */
enum sh_node_word {
    SH_NODE_KIND = 0,
    SH_NODE_PLACE = 1,
    SH_NODE_NAME = 2,
    SH_NODE_CHILDREN = 3, /* how many */
    SH_NODE_FACTS = 4,    /* the first of four */
    SH_NODE_WORDS = 8
};

#define SH_MISSING UINT32_C(4294967295)

/* How many words hold the nodes of a table of so many rows, whatever they are. */
#define SH_NODE_ROOM(rows) ((size_t)(rows) * SH_NODE_WORDS)

/* Node kinds, their children in brackets, and their facts. Names are rows of variables, calls, fields, reg, imm,
 * heap, sections, licences, units, event fields, events and maps, and missing for the others. */
enum sh_node_kind {
    SH_NODE_KIND_VARIABLE = 1,
    SH_NODE_KIND_NUMBER = 2,      /* value low, value high */
    SH_NODE_KIND_DEREFERENCE = 3, /* [inner] */
    SH_NODE_KIND_ADD = 4,         /* [left, right], as are the next six */
    SH_NODE_KIND_SUB = 5,
    SH_NODE_KIND_MUL = 6,
    SH_NODE_KIND_DIV = 7,
    SH_NODE_KIND_MOD = 8,
    SH_NODE_KIND_SHL = 9,
    SH_NODE_KIND_SHR = 10,
    SH_NODE_KIND_CALL = 11,        /* [receiver, arguments] */
    SH_NODE_KIND_FIELD = 12,       /* [of what] */
    SH_NODE_KIND_EXPRESSION = 13,  /* [expression]: an expression that is a statement */
    SH_NODE_KIND_ASSIGN = 14,      /* [left, right] */
    SH_NODE_KIND_ADD_ASSIGN = 15,  /* [left, right] */
    SH_NODE_KIND_REG = 16,         /* [value] */
    SH_NODE_KIND_IMM = 17,         /* [value] */
    SH_NODE_KIND_HEAP = 18,        /* [value] */
    SH_NODE_KIND_RETURN = 19,      /* [value] */
    SH_NODE_KIND_IF = 20,          /* [variable, then, else if present] */
    SH_NODE_KIND_THEN = 21,        /* [statements] */
    SH_NODE_KIND_ELSE = 22,        /* [statements] */
    SH_NODE_KIND_SECTION = 23,
    SH_NODE_KIND_LICENSE = 24,
    SH_NODE_KIND_UNIT = 25,        /* [statements, sections, licences]: program kind; the last licence's string row, or SH_MISSING */
    SH_NODE_KIND_EVENT_FIELD = 26, /* shape; element type, 0 for bytes; length, 0 if plain */
    SH_NODE_KIND_EVENT = 27,       /* [fields] */
    SH_NODE_KIND_MAP = 28,         /* map type; key type and value type, 0 if absent; max */
    SH_NODE_KIND_PROGRAM = 29      /* [maps, events, units] */
};

/* Types of keys, values and elements. */
enum sh_type {
    SH_TYPE_U32 = 1,
    SH_TYPE_U64 = 2,
    SH_TYPE_I32 = 3,
    SH_TYPE_I64 = 4
};

enum sh_map_type {
    SH_MAP_TYPE_HASH = 1,
    SH_MAP_TYPE_ARRAY = 2,
    SH_MAP_TYPE_RINGBUF = 3,
    SH_MAP_TYPE_LRU_HASH = 4,
    SH_MAP_TYPE_PROG_ARRAY = 5
};

/* The shape of an event's field. */
enum sh_shape {
    SH_SHAPE_PLAIN = 1,
    SH_SHAPE_BYTES = 2,
    SH_SHAPE_ARRAY = 3
};

/* What a unit is, by its first section. */
enum sh_program_kind {
    SH_PROGRAM_KIND_XDP = 0,
    SH_PROGRAM_KIND_TC = 1,
    SH_PROGRAM_KIND_SOCKET = 2,
    SH_PROGRAM_KIND_CGROUP = 3,
    SH_PROGRAM_KIND_KPROBE = 4,
    SH_PROGRAM_KIND_TRACEPOINT = 5,
    SH_PROGRAM_KIND_RAW_TRACEPOINT = 6,
    SH_PROGRAM_KIND_FENTRY = 7,
    SH_PROGRAM_KIND_FEXIT = 8,
    SH_PROGRAM_KIND_LSM = 9,
    SH_PROGRAM_KIND_UNKNOWN = 10
};

/* Context methods. */
enum sh_method {
    SH_METHOD_LOAD_U8 = 0,
    SH_METHOD_LOAD_U16 = 1,
    SH_METHOD_LOAD_U32 = 2,
    SH_METHOD_LOAD_U64 = 3,
    SH_METHOD_LOAD_I8 = 4,
    SH_METHOD_LOAD_I16 = 5,
    SH_METHOD_LOAD_I32 = 6,
    SH_METHOD_LOAD_I64 = 7,
    SH_METHOD_LOAD_BYTES = 8,
    SH_METHOD_GET_PID_TGID = 9,
    SH_METHOD_GET_UID_GID = 10,
    SH_METHOD_GET_CURRENT_COMM = 11,
    SH_METHOD_GET_CURRENT_TASK = 12,
    SH_METHOD_GET_KTIME_NS = 13,
    SH_METHOD_PROBE_READ_USER_STR = 14,
    SH_METHOD_PROBE_READ_KERNEL_STR = 15
};

/* Refusal numbers: 1 to 7 of the call, 11 to 17 of the scan, 21 to 32 of the parse; 40 to 45 are below. A later
 * version may have more. */
enum sh_refusal {
    SH_REFUSED_TEXT_TOO_LONG = 1,     /* over SH_LONGEST_TEXT bytes */
    SH_REFUSED_BAD_BYTE = 2,          /* no valid UTF-8: its place is where the first character starts that is broken or cut by the end */
    SH_REFUSED_NOT_WELL_FORMED = 3,   /* a table, a row number or a set number; of spelling and parse also
                                       * a table of another length than the text's; of layout nodes that are not the text's tree */
    SH_REFUSED_NO_ROW_ROOM = 4,       /* more rows than lent room; of layout more bytes */
    SH_REFUSED_NO_NODE_ROOM = 5,      /* node room below row count */
    SH_REFUSED_EDIT_NOT_SENSIBLE = 6, /* a place past the old text, a above b, or a wrong window */
    SH_REFUSED_WINDOW_SHORT = 7,      /* show a longer window */
    SH_REFUSED_NO_ROW_BEGINS = 11,    /* a byte that begins no row, also one of 128 or more */
    SH_REFUSED_OPEN_COMMENT = 12,
    SH_REFUSED_OPEN_STRING = 13,
    SH_REFUSED_BAD_ESCAPE = 14,
    SH_REFUSED_NUMBER_TOO_LARGE = 15, /* digits over 2^63 - 1 */
    SH_REFUSED_LONE_SIGN = 16,        /* a lone < or > */
    SH_REFUSED_NO_HEX_DIGIT = 17,     /* 0x without a hex digit */
    SH_REFUSED_WANTED = 21,           /* another kind was wanted; tells kinds, and the one that was found */
    SH_REFUSED_NOT_TOP_LEVEL = 22,    /* not a top-level word; tells kinds */
    SH_REFUSED_NOT_MAP_FIELD = 23,    /* tells kinds */
    SH_REFUSED_MAP_TYPE_UNKNOWN = 24,
    SH_REFUSED_NOT_TYPE = 25,         /* tells kinds, of the row that should have been the type, one before the place (but Eof itself) */
    SH_REFUSED_MAX_NEGATIVE = 26,
    SH_REFUSED_OUT_OF_RANGE = 27,     /* max or length */
    SH_REFUSED_SHIFT_COUNT = 28,      /* outside 0 to 63 */
    SH_REFUSED_MAP_LACKS = 29,        /* a field, which is told */
    SH_REFUSED_NOT_EVENT_TYPE = 30,   /* tells kinds */
    SH_REFUSED_CALL_ON_OTHER = 31,    /* a call on anything but a variable */
    SH_REFUSED_TOO_DEEP = 32          /* the 65th open construct */
};

/* Whether a row kind is one of those that a refused parse tells: exactly the kinds with which some program of the
 * grammar goes on behind the rows in front, of any nesting and with the checks of 24, 26 to 29 and 31 left aside.
 * Only 21, 22, 23, 25 and 30 tell kinds: look at the number first. It is for kinds 0 to 63: SH_FITS of 64 would ask
 * about kind 32. */
#define SH_FITS(answer, kind) ((answer)[(kind) < 32 ? SH_FIRST : SH_SECOND] >> ((kind) % 32) & 1)

/* Refusal numbers of the calls over files, beside 1 to 4; their place is 0 1 1. */
enum sh_file_refusal {
    SH_FILE_TOO_MANY_ROWS = 40, /* over SH_MOST_STORED_ROWS */
    SH_FILE_BAD_BLOCK = 41,     /* check, number, row count or filler is wrong of the block that SH_FIRST tells; blocks count from 0 */
    SH_FILE_WRONG_LENGTH = 42,  /* under 512 bytes, or not as block 0 says */
    SH_FILE_NO_TABLE = 43,      /* sound blocks, and no table that can be stored */
    SH_FILE_OTHER_FORM = 44,    /* block 0 says another form than 1, and where the text is lent than 1 and 2; or such a form is asked for */
    SH_FILE_OTHER_TEXT = 45     /* the text's length, or a line or column, does not agree with the text */
};

enum { SH_MOST_STORED_ROWS = 65535 };

/* The forms of a file. In the second a row has neither line nor column, which follow from the text, and so takes
 * three quarters of the bytes. */
enum sh_form { SH_FORM_FULL = 1, SH_FORM_SHORT = 2 };

/* How many bytes the file of so many rows has, in each form. */
#define SH_FILE_ROOM(rows) (512 * (1 + ((size_t)(rows) + 14) / 15))
#define SH_SHORT_FILE_ROOM(rows) (512 * (1 + ((size_t)(rows) + 20) / 21))

/* The field that a map lacks. */
enum sh_map_field {
    SH_MAP_FIELD_TYPE = 1,
    SH_MAP_FIELD_KEY = 2,
    SH_MAP_FIELD_VALUE = 3,
    SH_MAP_FIELD_MAX = 4
};

/* The counts of a tally, of 64 bits each. */
enum sh_tally_count {
    SH_TALLY_UNITS = 0,       /* eleven, by program kind */
    SH_TALLY_MAPS = 11,       /* five, by map type from 1 on */
    SH_TALLY_EVENTS = 16,
    SH_TALLY_STATEMENTS = 17, /* also those in bodies; an `if` is one */
    SH_TALLY_MAX = 18,        /* the sum of all max values */
    SH_TALLY_METHODS = 19,    /* the context methods that each unit's kind allows, added up */
    SH_TALLY_COUNTS = 20
};

/* How many nodes a tally may be of: as many as two texts have rows. */
enum { SH_TALLY_MOST_NODES = 131074 };

/* The refusal number of a joining. */
enum sh_join_refusal { SH_JOIN_COUNT_TOO_LARGE = 70 };

/* The archive's version: SPOONHARBOR_VERSION of the header that it belongs to. */
uint32_t spoonharbor_version(void);

/* Scan a text into rows. row_words: words, not rows. Number 0 or 11 to 17: a table of SH_COUNT rows, which ends so.
 * 4: as many rows as there is room for are written; SH_ROW_ROOM(text_length) words are always enough. 1, 2: the rows
 * are untouched. 2 stands where the longest valid UTF-8 beginning ends (RFC 3629: no overlong form, no surrogate,
 * nothing above U+10FFFF). */
void spoonharbor_scan(const uint8_t *text, size_t text_length, uint32_t *rows, size_t row_words, uint32_t answer[SH_WORDS]);

/* 1 if a table is well formed (see above), else 0. row_words: words, not rows. */
uint32_t spoonharbor_well_formed(const uint32_t *rows, size_t row_words, const uint32_t table[SH_WORDS]);

/* The part of the text that a row spells: bytes SH_FIRST to SH_SECOND, whole characters if the table is the text's
 * own. row_words: words, not rows; `row` is a row's number. Refusals in this order: 1, 2, 3 (the table is not well
 * formed, its length is not text_length, or there is no such row). The whole text and table are tested at each call;
 * who keeps both as a call left them reads SH_ROW_START and SH_ROW_END of the row instead. */
void spoonharbor_spelling(const uint8_t *text, size_t text_length, const uint32_t *rows, size_t row_words, const uint32_t table[SH_WORDS],
                          uint32_t row, uint32_t answer[SH_WORDS]);

/* Parse a table into nodes: SH_COUNT of them, or a refusal that leaves node memory untouched. row_words and
 * node_words: words, not rows or nodes; SH_NODE_ROOM of the row count suffices. Refusals, the first of them in this
 * order: 1, 2, 3 (the table is not well formed, or its length is not text_length), the table's own 11 to 17, 5, then
 * 21 to 32 in reading order. */
void spoonharbor_parse(const uint8_t *text, size_t text_length, const uint32_t *rows, size_t row_words, const uint32_t table[SH_WORDS],
                       uint32_t *nodes, size_t node_words, uint32_t answer[SH_WORDS]);

/* Write a tree back as source: SH_LENGTH bytes from the front of `room`. A newline stands after each `{`, `}` and
 * `;`, one blank after every other row but Eof. Map fields stand in the order type, key, value, max, each once.
 * Numbers are decimal, and there are parentheses only where the grammar needs them. Comments are lost.
 *
 * Lend the text, what a scan of it left and told, and what a parse of that left and told (its SH_COUNT is
 * node_count). row_words and node_words: words, not rows or nodes; room_length: bytes. Words after the rows and nodes
 * play no part. `scratch` holds a scan and a parse that the call makes itself: what stands in it before plays no
 * part, and what it holds afterwards is of no use.
 *
 * Refusals in this order: 3, the nodes are not the text's tree; 4, the layout is longer than the room or than
 * SH_LONGEST_TEXT. Both leave the room untouched. The nodes are the text's tree if a scan and a parse of the text
 * tell 0, and SH_NUMBER, SH_COUNT and SH_LENGTH of the table, every word of the rows, node_count and every word of
 * the nodes are those that the two tell and leave. So a text that is too long, no UTF-8, or refused by the scan or
 * the parse is 3, whatever is lent with it, and there is no other number. Bytes of the room after the layout are
 * never written. Lend SH_LONGEST_TEXT bytes: more never help.
 *
 * The layout is a text: a scan and a parse of it tell 0. It has as many nodes, in the same order, with the same kinds,
 * children and facts, and with names spelled the same. Only SH_NODE_PLACE, SH_NODE_NAME and the row of a unit's
 * licence may differ. Laid out again it is the same bytes. */
void spoonharbor_layout(const uint8_t *text, size_t text_length, const uint32_t *rows, size_t row_words, const uint32_t table[SH_WORDS],
                        const uint32_t *nodes, size_t node_words, uint32_t node_count, uint32_t scratch[SH_SCRATCH_WORDS], uint8_t *room,
                        size_t room_length, uint32_t answer[SH_WORDS]);

/* Old bytes a to b (b not included) became n new ones, and the text is all of the new text. The new table is that of
 * a fresh scan of it. One call suffices: it finds the restart place itself, and never says 7. old_words and
 * new_words: words, not rows.
 *
 * old_rows and new_rows must be two buffers that do not overlap: the call reads old rows after it has begun to write
 * new ones. With one buffer for both the answer is often silently wrong. Swap the two after each change.
 *
 * Refusals in this order: 3; 6 (a is above b, b is past the old text, or text_length is not the old length - (b - a)
 * + n); 1; 2 (of the bytes from the restart place on). These leave the new rows untouched. Then 4 or 11 to 17 as a
 * scan gives them.
 *
 * A character that arrives byte by byte: the text with a part of a character is 2, and after 2 there is no table. So
 * keep the bytes until the character is whole, and keep the old table with the old text. Then make one change that
 * has all of its bytes.
 *
 * The table must be the old text's own, as a scan, a change or an edit of that text left it. If it is another well
 * formed table, the answer follows from it and is no scan's: with the table of `b a` beside the text `1 a`, a change
 * at the end leaves row 0 a name.
 *
 * The text must be the old one but for the change. The call does not look at what stands in front of the restart
 * place. Of what follows a meeting place it judges the UTF-8 alone. If either is another text, the arguments still
 * determine the answer, but it is no scan's. Assert `sh_front_holds` in debugging. */
void spoonharbor_change(const uint32_t *old_rows, size_t old_words, const uint32_t table[SH_WORDS], uint32_t a, uint32_t b, uint32_t n,
                        const uint8_t *text, size_t text_length, uint32_t *new_rows, size_t new_words, uint32_t answer[SH_WORDS]);

/* The same for whoever does not hold the whole new text. The window is a part of it that starts at the restart place
 * (offset `start`). The new table is that of a fresh scan of the new text, or 7: show a longer window. old_words and
 * new_words: words, not rows; window_length: bytes.
 *
 * As for a change: old_rows and new_rows must be two buffers that do not overlap; the table must be the old text's
 * own; and a character that arrives byte by byte is kept until it is whole, since a part of one is 2, the kept table
 * going with the kept text.
 *
 * Refusals in this order: 3; 6 (a is above b, b is past the old text, `start` is not the restart place of a, or the
 * window runs past the new text's end, which is the old length - (b - a) + n); 1; 7, the window ends before a + n +
 * 4 and not at the text's end; 2, in the window, whose end may cut a character unless it is the text's; 7, the
 * window shows neither where the old rows go on, nor a refusal, nor the text's end. These leave the new rows
 * untouched; then 4 or 11 to 17 as a scan gives them.
 *
 * How long a window: it must show all new bytes, the four behind them, and some way on (256 bytes mostly suffice).
 * As long as the answer is 7, show four times as much behind the new bytes, up to the text's end: a window to the
 * text's end is never 7. Each call costs a pass over the table, so growing byte by byte is slow: in 60 KB of text up
 * to half a minute, where growing fourfold takes five calls and 2 ms. */
void spoonharbor_edit(const uint32_t *old_rows, size_t old_words, const uint32_t table[SH_WORDS], uint32_t a, uint32_t b, uint32_t n,
                      uint32_t start, const uint8_t *window, size_t window_length, uint32_t *new_rows, size_t new_words,
                      uint32_t answer[SH_WORDS]);

/* Where the window of an edit at a must start: SH_OFFSET, SH_LINE, SH_COLUMN with number 0. old_words: words, not
 * rows. Refusals in this order: 3; 6, a is past the old text. */
void spoonharbor_restart(const uint32_t *old_rows, size_t old_words, const uint32_t table[SH_WORDS], uint32_t a, uint32_t answer[SH_WORDS]);

/* For an assert before a change or an edit at a: 1 if a scan of the new text begins with the rows that are kept, so
 * that its front is what the old table was made of, else 0. It writes scratch memory, which may be that of the new
 * rows. If there is less room than kept rows, it compares as many as there is room for. If the call itself refuses
 * the old table, a or the text behind the front, the front is not held against it. It costs a scan up to there. */
static inline int sh_front_holds(const uint32_t *old_rows, size_t old_words, const uint32_t table[SH_WORDS], uint32_t a,
                                 const uint8_t *text, size_t text_length, uint32_t *scratch, size_t scratch_words) {
    uint32_t restart[SH_WORDS], told[SH_WORDS];
    size_t rows = 0, word = 0;
    spoonharbor_restart(old_rows, old_words, table, a, restart);
    if (restart[SH_NUMBER] != 0) return 1;
    while (rows < table[SH_COUNT] && rows < scratch_words / SH_ROW_WORDS
           && old_rows[rows * SH_ROW_WORDS + SH_ROW_END] < a) rows++;
    spoonharbor_scan(text, text_length, scratch, rows * SH_ROW_WORDS, told);
    if (told[SH_NUMBER] == SH_REFUSED_TEXT_TOO_LONG) return 1;
    if (told[SH_NUMBER] == SH_REFUSED_BAD_BYTE) return told[SH_OFFSET] >= restart[SH_OFFSET];
    while (word < rows * SH_ROW_WORDS && scratch[word] == old_rows[word]) word++;
    return told[SH_COUNT] == rows && word == rows * SH_ROW_WORDS;
}

/* Store a table as a file: SH_LENGTH bytes from the front of it, SH_COUNT blocks. row_words: words, not rows;
 * file_room: bytes, of which SH_FILE_ROOM of the row count suffices. Refusals in this order: 3, 40, 4; they leave
 * the file untouched. */
void spoonharbor_store(const uint32_t *rows, size_t row_words, const uint32_t table[SH_WORDS], uint8_t *file, size_t file_room,
                       uint32_t answer[SH_WORDS]);

/* Read a stored table into rows; the answer tells it as a scan does, and can be lent on as the table. row_words:
 * words, not rows. The file is all that is lent: one byte more is 42. Which text the table is of is not in the file,
 * but for the text's length; a table that is lent on beside a text of that length which is not its own is taken by
 * every call, and only a scan tells. Refusals in this order: 42 (under 512 bytes), 41 of block 0, 44, 42, 41 of the
 * first other bad block, 43, 4; they leave the rows untouched. */
void spoonharbor_load(const uint8_t *file, size_t file_length, uint32_t *rows, size_t row_words, uint32_t answer[SH_WORDS]);

/* Read a file of either form beside its text, from which lines and columns follow; else as `spoonharbor_load`.
 * row_words: words, not rows. A file that agrees with the text in its length and, in the first form, in each line
 * and column is taken; only a scan tells whether it is the text's own. Refusals in this order: 42 (under 512 bytes),
 * 41 of block 0, 44, 42, 41 of the first other bad block, 43, 4, 45; they leave the rows untouched. The text itself
 * is not judged: one that is too long agrees with no file. */
void spoonharbor_load_beside(const uint8_t *text, size_t text_length, const uint8_t *file, size_t file_length, uint32_t *rows,
                             size_t row_words, uint32_t answer[SH_WORDS]);

/* Move a file to a form, beside its text: SH_LENGTH bytes from the front of `moved`, SH_COUNT blocks. There and back
 * gives the same bytes, and so does a move to the form that the file has. SH_FILE_ROOM or SH_SHORT_FILE_ROOM of the
 * row count suffices. Refusals in this order: 44 (the form asked for), then as `spoonharbor_load_beside`; they leave
 * `moved` untouched. */
void spoonharbor_move(const uint8_t *text, size_t text_length, const uint8_t *file, size_t file_length, uint32_t form, uint8_t *moved,
                      size_t moved_room, uint32_t answer[SH_WORDS]);

/* Mend a file in place: the first `file_length` bytes of `file` become the file that a scan of the text gives in the
 * form asked for, SH_LENGTH bytes of it. The numbers of the SH_COUNT blocks that differed from that stand in
 * `blocks` then, from the lowest on: damaged, cut and missing ones, and last, if the file was longer, the first
 * block of what is too much, whose bytes stay behind SH_LENGTH. Nothing is written over a block that was right. An
 * empty file is written whole. What the file says of itself plays no part, so a file of the other form is written
 * anew. block_words: how many numbers the list has room for, at most SH_LENGTH / 512 + 1 of which are needed.
 * Refusals in this order: 44, 1, 2 (as a scan), 40, 4 (file or list, or `file_length` is above `file_room`); they
 * leave file and list untouched. The text is read twice where a block differed, else once, and no rows are kept. */
void spoonharbor_mend(const uint8_t *text, size_t text_length, uint32_t form, uint8_t *file, size_t file_room, size_t file_length,
                      uint32_t *blocks, size_t block_words, uint32_t answer[SH_WORDS]);

/* SH_FIRST is 1 if a program kind (0 to 10) allows a context method (0 to 15), else 0. Refusal 3. */
void spoonharbor_allows(uint32_t kind, uint32_t method, uint32_t answer[SH_WORDS]);

/* SH_FIRST is how many context methods a program kind allows. Refusal 3. */
void spoonharbor_set_size(uint32_t kind, uint32_t answer[SH_WORDS]);

/* The program kind of a section's text, 0 to 10. */
uint32_t spoonharbor_section_kind(const uint8_t *text, size_t text_length);

/* Count what the first `node_count` nodes have. For a text's program lend what a parse left and SH_COUNT, as it told
 * it. node_words: words, not nodes. Returns 0, or 3 and twenty zeros: over SH_TALLY_MOST_NODES nodes, fewer lent than
 * said, a node's kind outside 1 to 29, a unit's kind over 10, a map's type outside 1 to 5. Nothing else of a node is
 * looked at. All twenty counts are always written. */
uint32_t spoonharbor_tally(const uint32_t *nodes, size_t node_words, uint32_t node_count, uint64_t tally[SH_TALLY_COUNTS]);

/* Add two tallies, count by count. Returns 0; or 70 and the first tally, where a sum passes 64 bits. All twenty counts
 * are always written. `joined` is a third tally: it must overlap neither of the two. */
uint32_t spoonharbor_join(const uint64_t first[SH_TALLY_COUNTS], const uint64_t second[SH_TALLY_COUNTS],
                          uint64_t joined[SH_TALLY_COUNTS]);

#ifdef __cplusplus
}
#endif

#endif
