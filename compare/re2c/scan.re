/* The scan rules as a re2c scanner that writes the same rows and answer as `spoonharbor_scan`: a measure for the library's speed.
 * It is lent the text with a byte 0 behind it, which the library does not need. */
#include <stddef.h>
#include <stdint.h>

enum { LIMIT = 65536, EOF_KIND = 52 };

/* An answer: number, place, two words, count, length. */
static void tell(uint32_t answer[8], uint32_t number, size_t offset, size_t line, size_t column, size_t count, size_t length) {
    answer[0] = number;
    answer[1] = (uint32_t)offset;
    answer[2] = (uint32_t)line;
    answer[3] = (uint32_t)column;
    answer[4] = 0;
    answer[5] = 0;
    answer[6] = (uint32_t)count;
    answer[7] = (uint32_t)length;
}

static unsigned digit(unsigned char byte) {
    return byte <= '9' ? byte - '0' : (byte | 32) - 'a' + 10;
}

/* What the digits from p to e spell, or over 2^63 - 1 where they spell more. */
static uint64_t spelt(const unsigned char *p, const unsigned char *e, uint64_t base) {
    uint64_t value = 0;
    for (; p < e; p++) {
        if (value > (INT64_MAX - digit(*p)) / base) return (uint64_t)INT64_MAX + 1;
        value = value * base + digit(*p);
    }
    return value;
}

/* How many bytes the character behind a first byte has, by the table of RFC 3629; 0 where none stands there. */
static size_t character(const uint8_t *p, size_t left) {
    size_t size = *p < 0x80 ? 1 : *p < 0xC2 ? 0 : *p < 0xE0 ? 2 : *p < 0xF0 ? 3 : *p < 0xF5 ? 4 : 0;
    uint8_t low = *p == 0xE0 ? 0xA0 : *p == 0xF0 ? 0x90 : 0x80;
    uint8_t high = *p == 0xED ? 0x9F : *p == 0xF4 ? 0x8F : 0xBF;
    if (size > left || (size > 1 && (p[1] < low || p[1] > high))) return 0;
    for (size_t i = 2; i < size; i++)
        if (p[i] < 0x80 || p[i] > 0xBF) return 0;
    return size;
}

/* How long the longest beginning is that consists of characters. A text of ASCII alone is told by one pass over all of it, which the
 * compiler makes one over many bytes at a time. */
static size_t valid_bytes(const uint8_t *text, size_t length) {
    size_t valid = 0;
    uint8_t all = 0;
    for (size_t i = 0; i < length; i++) all |= text[i];
    if (all < 128) return length;
    for (;;) {
        while (valid < length && text[valid] < 128) valid++;
        size_t size = valid < length ? character(text + valid, length - valid) : 0;
        if (size == 0) return valid;
        valid += size;
    }
}

void re2c_scan(const uint8_t *text, size_t length, uint32_t *rows, size_t room, uint32_t answer[8]) {
    const unsigned char *YYCURSOR = text, *YYLIMIT = text + length, *YYMARKER = text;
    const unsigned char *line_start = text, *start;
    size_t line = 1, count = 0, valid = 0;
    uint32_t kind, why, comments = 0;
    uint64_t bits;
    const unsigned char *place;
    if (length > LIMIT) {
        tell(answer, 1, 0, 1, 1, 0, 0);
        return;
    }
    valid = valid_bytes(text, length);
    if (valid < length) {
        for (place = text; place < text + valid; place++)
            if (*place == '\n') line++, line_start = place + 1;
        tell(answer, 2, valid, line, (size_t)(text + valid - line_start) + 1, 0, 0);
        return;
    }
next:
    start = YYCURSOR;
    bits = 0;
    /*!re2c
        re2c:yyfill:enable = 0;
        re2c:eof = 0;
        re2c:define:YYCTYPE = "unsigned char";

        word = [A-Za-z_][A-Za-z0-9_]*;
        decimal = [0-9]+;
        hex = "0x" [0-9A-Fa-f]+;

        [\t\v\f\r ]+ { goto next; }
        "\n" { line++; line_start = YYCURSOR; goto next; }
        "//" [^\n]* { comments++; goto next; }
        "/*" { goto comment; }

        "unit" { kind = 0; goto row; }
        "section" { kind = 1; goto row; }
        "license" { kind = 2; goto row; }
        "return" { kind = 3; goto row; }
        "reg" { kind = 4; goto row; }
        "imm" { kind = 5; goto row; }
        "map" { kind = 6; goto row; }
        "type" { kind = 7; goto row; }
        "key" { kind = 8; goto row; }
        "value" { kind = 9; goto row; }
        "max" { kind = 10; goto row; }
        "if" { kind = 11; goto row; }
        "else" { kind = 12; goto row; }
        "guard" { kind = 13; goto row; }
        "heap" { kind = 14; goto row; }
        "event" { kind = 15; goto row; }
        "u32" { kind = 21; goto row; }
        "u64" { kind = 22; goto row; }
        "i32" { kind = 23; goto row; }
        "i64" { kind = 24; goto row; }
        "bytes" { kind = 51; goto row; }
        word { kind = 48; goto row; }

        decimal { kind = 50; bits = spelt(start, YYCURSOR, 10); goto number; }
        "-" decimal { kind = 50; bits = spelt(start + 1, YYCURSOR, 10); goto number; }
        hex { kind = 50; bits = spelt(start + 2, YYCURSOR, 16); goto number; }
        "-" hex { kind = 50; bits = spelt(start + 3, YYCURSOR, 16); goto number; }
        "-"? "0x" { why = 17; place = YYCURSOR; goto refused; }

        "\"" ([^"\\\n] | "\\" ["\\n])* "\"" { kind = 49; goto row; }
        "\"" { goto broken; }

        "{" { kind = 25; goto row; }
        "}" { kind = 26; goto row; }
        "(" { kind = 27; goto row; }
        ")" { kind = 28; goto row; }
        ":" { kind = 29; goto row; }
        "." { kind = 30; goto row; }
        "," { kind = 31; goto row; }
        ";" { kind = 32; goto row; }
        "[" { kind = 33; goto row; }
        "]" { kind = 34; goto row; }
        "=" { kind = 35; goto row; }
        "+=" { kind = 36; goto row; }
        "-=" { kind = 37; goto row; }
        "*=" { kind = 38; goto row; }
        "/=" { kind = 39; goto row; }
        "%=" { kind = 40; goto row; }
        "+" { kind = 41; goto row; }
        "-" { kind = 42; goto row; }
        "*" { kind = 43; goto row; }
        "/" { kind = 44; goto row; }
        "%" { kind = 45; goto row; }
        ">>" { kind = 46; goto row; }
        "<<" { kind = 47; goto row; }

        $ { kind = EOF_KIND; start = YYLIMIT; YYCURSOR = YYLIMIT; goto row; }
        [<>] { why = 16; place = start; goto refused; }
        * { why = 11; place = start; goto refused; }
    */
number:
    if (bits > INT64_MAX) {
        why = 15;
        place = start;
        goto refused;
    }
    if (*start == '-') bits = 0 - bits;
row:
    if (count == room) {
        tell(answer, 4, 0, 1, 1, count, 0);
        return;
    }
    rows[0] = kind;
    rows[1] = (uint32_t)(start - text);
    rows[2] = (uint32_t)(YYCURSOR - text);
    rows[3] = (uint32_t)line;
    rows[4] = (uint32_t)(start - line_start) + 1;
    rows[5] = (uint32_t)bits;
    rows[6] = (uint32_t)(bits >> 32);
    rows[7] = comments;
    rows += 8;
    comments = 0;
    count++;
    if (kind == EOF_KIND) {
        tell(answer, 0, 0, 0, 0, count, length);
        return;
    }
    goto next;
comment:
    place = YYCURSOR;
    {
        size_t opened = line;
        const unsigned char *opened_line = line_start;
        for (; YYCURSOR < YYLIMIT; YYCURSOR++) {
            if (*YYCURSOR == '*' && YYCURSOR[1] == '/' && YYCURSOR + 1 < YYLIMIT) {
                YYCURSOR += 2;
                comments++;
                goto next;
            }
            if (*YYCURSOR == '\n') line++, line_start = YYCURSOR + 1;
        }
        line = opened;
        line_start = opened_line;
    }
    why = 12;
    goto refused;
broken:
    why = 13;
    for (place = start + 1; place < YYLIMIT && *place != '\n'; place++) {
        if (*place != '\\') continue;
        if (place + 1 < YYLIMIT && place[1] != '"' && place[1] != '\\' && place[1] != 'n') {
            why = 14;
            break;
        }
        if (place + 1 < YYLIMIT) place++;
    }
refused:
    tell(answer, why, (size_t)(place - text), line, (size_t)(place - line_start) + 1, count, length);
}
