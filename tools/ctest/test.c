/*
 * test: calls each function of include/oq3.h and compares. First with values by hand, from the scope's tables and rules; then, from standard input, the members of the
 * properties, as crates/membership/stdout has them of the Rust, and the lines of the test vectors, `TASK ARGUMENTS = ANSWER`. What these do not say is
 * held to a plain model of it, written here, and the stack that a call takes to the bounds of oq3.h. The last line is `N passed, M failed`.
 *
 * C's own functions are declared here, so that only the compiler's headers are needed where C's for x86-64 are not at hand.
 */
#include "oq3.h"

int printf(const char *, ...);
int snprintf(char *, size_t, const char *, ...);
int getchar(void);
int memcmp(const void *, const void *, size_t);
void *memcpy(void *, const void *, size_t);
void *memset(void *, int, size_t);
size_t strlen(const char *);
int strcmp(const char *, const char *);
void *mmap(void *, size_t, int, int, int, long);
int mprotect(void *, size_t, int);

/* the layouts that the archive has */
typedef char answer_16[sizeof(oq3_answer) == 16 && offsetof(oq3_answer, also) == 8 ? 1 : -1];
typedef char char_16[sizeof(oq3_char) == 16 && offsetof(oq3_char, wide) == 8 ? 1 : -1];
typedef char records[sizeof(oq3_token) == 4 * OQ3_WORDS && offsetof(oq3_token, start) == 12 && offsetof(oq3_token, misplaced) == 16 && sizeof(oq3_item) == 4 * OQ3_ITEM_WORDS ? 1 : -1];
/* a list with room for so many tokens has it for so many items */
typedef char items_fit[OQ3_ITEM_WORDS <= OQ3_WORDS ? 1 : -1];
typedef char sight_24[sizeof(oq3_sight) == 24 && offsetof(oq3_sight, start) == 8 && offsetof(oq3_sight, length) == 16 ? 1 : -1];
typedef char comparison_80[sizeof(oq3_comparison) == 80 && offsetof(oq3_comparison, refusal) == 8 && offsetof(oq3_comparison, agreed) == 24
                                   && offsetof(oq3_comparison, in_old) == 32 && offsetof(oq3_comparison, in_new) == 56
                               ? 1
                               : -1];
typedef char lexer_104[sizeof(oq3_lexer) == 104 && offsetof(oq3_lexer, own2) == 64 && offsetof(oq3_lexer, own3) == 68 && offsetof(oq3_lexer, own4) == 88
                               && offsetof(oq3_lexer, own5) == 96
                           ? 1
                           : -1];
typedef char fed_120[sizeof(oq3_fed) == 120 && offsetof(oq3_fed, lexer) == 16 ? 1 : -1];
typedef char span_24[sizeof(oq3_span) == 24 && offsetof(oq3_span, which) == 4 && offsetof(oq3_span, at) == 8 && offsetof(oq3_span, length) == 16 ? 1 : -1];
typedef char place_16[sizeof(oq3_place) == 16 && offsetof(oq3_place, column) == 8 ? 1 : -1];

/* lent memory stands in the middle of these, between words and bytes that no call may change */
enum { TEXT = 1 << 12, GUARD = 8, WORDS = OQ3_WORDS * (TEXT + 2), KEY = 11 * TEXT };
#define MARK UINT32_C(0xA5A5A5A5)
static uint32_t words[GUARD + WORDS + GUARD];
static uint8_t bytes[GUARD + KEY + GUARD];
static uint32_t *const list = words + GUARD;
static uint8_t *const key = bytes + GUARD;
static unsigned long passed, failed;

static void check(bool good, const char *what, long line) {
    if (good) {
        passed++;
        return;
    }
    failed++;
    printf("test.c:%ld: %s\n", line, what);
}
#define CHECK(x) check((x), #x, __LINE__)

static bool is(oq3_answer a, uint32_t number, uint64_t also) {
    return a.number == number && a.also == also;
}

static void fresh(void) {
    memset(words, 0xA5, sizeof words);
    memset(bytes, 0xA5, sizeof bytes);
}

/* nothing changed but the first `n` words of the list and the first `m` bytes of the key */
static bool clean(size_t n, size_t m) {
    size_t i;
    for (i = 0; i < sizeof words / sizeof *words; i++)
        if ((i < GUARD || GUARD + n <= i) && words[i] != MARK)
            return false;
    for (i = 0; i < sizeof bytes; i++)
        if ((i < GUARD || GUARD + m <= i) && bytes[i] != 0xA5)
            return false;
    return true;
}

/* ---- the functions that fill a list of records */
typedef oq3_answer filler(const uint8_t *, size_t, uint32_t, uint32_t *, size_t);

/* the row of structs, in the room of a list: a part of a record is not lent */
static oq3_answer tokenize_rows(const uint8_t *text, size_t len, uint32_t profile, uint32_t *into, size_t room) {
    return oq3_tokenize_rows(text, len, profile, (oq3_token *)into, room / OQ3_WORDS);
}

/* the list in a room of so many words */
static bool fills_in(size_t room, filler *f, const uint8_t *text, size_t len, uint32_t selector, const uint32_t *want, size_t n, size_t need) {
    bool enough = need <= room;
    oq3_answer a;
    fresh();
    a = f(text, len, selector, room == 0 ? NULL : list, room);
    return is(a, enough ? OQ3_DONE : OQ3_ROOM_TOO_SMALL, n) && clean(enough ? need : 0, 0) && (!enough || memcmp(list, want, 4 * need) == 0);
}

/* the list in every kind of room: too small by a word to a record and by all, as small as can be, with a part of a record behind, and plenty */
static bool fills(filler *f, size_t width, const uint8_t *text, size_t len, uint32_t selector, const uint32_t *want, size_t n) {
    size_t need = width * n, i;
    bool good = true;
    for (i = 0; i <= width; i++)
        good = good && fills_in(need < i ? 0 : need - i, f, text, len, selector, want, n, need) && fills_in(need + i, f, text, len, selector, want, n, need);
    return good && fills_in(0, f, text, len, selector, want, n, need) && fills_in(width * len, f, text, len, selector, want, n, need)
           && fills_in(width * (len + 2), f, text, len, selector, want, n, need);
}

typedef struct sample {
    const char *text;
    uint32_t selector;
    size_t n;
    uint32_t want[4 * OQ3_WORDS];
} sample;

#define BYTES(s) ((const uint8_t *)(s))
#define OUT(e) (OQ3_NO_CHAR + (e))

static const sample tokens[] = {
    {"", 0, 0, {0}},
    {"\"\"", 0, 1, {59, 2, 2, 0, 0}},
    {"\"0\n\"", 0, 1, {57, 4, 4, 0, 0}},
    {"\"0\n", 0, 1, {58, 3, 3, 0, 0}},
    {"$_", 0, 1, {24, 2, 0, 0, 1}},
    {"0b102", 0, 1, {40, 5, 5, 0, 0}},
    {"1e", 0, 1, {53, 2, 2, 0, 0}},
    {"1.e5", 0, 1, {52, 4, 2, 0, 0}},
    {"1._5", 0, 1, {52, 4, 2, 0, 0}},
    {"0B1", 0, 1, {44, 3, 1, 0, 0}},
    {"/*/**/", 0, 1, {3, 6, 0, 0, 0}},
    {"pragma", 0, 1, {5, 6, 0, 0, 0}},
    {"pragma", 1, 1, {8, 6, 0, 0, 0}},
    {"pragma x\ny", OQ3_DEFAULT_PROFILE, 3, {OQ3_KIND_PRAGMA, 8, 0, 0, 0, OQ3_KIND_WHITESPACE, 1, 0, 8, 0, OQ3_KIND_IDENT, 1, 0, 9, 0}},
    {"pragmatic x", OQ3_DEFAULT_PROFILE, 1, {OQ3_KIND_PRAGMA, 11, 0, 0, 0}},
    {"#pragma x", OQ3_DEFAULT_PROFILE, 1, {OQ3_KIND_PRAGMA, 9, 0, 0, 0}},
    {"// pragma", OQ3_DEFAULT_PROFILE, 1, {OQ3_KIND_LINE_COMMENT, 9, 0, 0, 0}},
    {"pragma x", OQ3_PROFILE_RELEASE, 3, {OQ3_KIND_IDENT, 6, 0, 0, 0, OQ3_KIND_WHITESPACE, 1, 0, 6, 0, OQ3_KIND_IDENT, 1, 0, 7, 0}},
    {"1..2", 0, 3, {52, 2, 2, 0, 0, 12, 1, 0, 2, 0, 44, 1, 1, 3, 0}},
    {"$_ 1sec", 0, 4, {24, 2, 0, 0, 1, 4, 1, 0, 2, 0, 44, 1, 1, 3, 0, 5, 3, 0, 4, 0}},
    {"#prag", 0, 1, {7, 5, 0, 0, 0}},
    {"#pragmatic", 0, 1, {8, 10, 0, 0, 0}},
    {"0x1.5", 0, 1, {54, 5, 5, 0, 0}},
    {";,'", 0, 3, {OQ3_KIND_SEMI, 1, 0, 0, 0, OQ3_KIND_COMMA, 1, 0, 1, 0, OQ3_KIND_UNKNOWN, 1, 0, 2, 0}},
    /* underscores that have not a digit on both sides */
    {"1_", 0, 1, {44, 2, 2, 0, 1}},
    {"1_0", 0, 1, {44, 3, 3, 0, 0}},
    {"1__0", 0, 1, {44, 4, 4, 0, 1}},
    {"1_s", 0, 2, {44, 2, 2, 0, 1, 5, 1, 0, 2, 0}},
    {"$1_0", 0, 1, {6, 4, 0, 0, 0}},
    {"$1_", 0, 1, {6, 3, 0, 0, 2}},
    {"0x_", 0, 1, {47, 3, 3, 0, 2}},
    {"0xf_f", 0, 1, {46, 5, 5, 0, 0}},
    {"0x1.5_f", 0, 1, {54, 7, 6, 0, 5}},
    {"0b1_2", 0, 1, {40, 5, 5, 0, 0}},
    {"1.5_", 0, 1, {52, 4, 4, 0, 3}},
    {"1e_5", 0, 1, {52, 4, 4, 0, 2}},
    {"1.5e+_5", 0, 1, {52, 7, 7, 0, 5}},
    {"1_e5_", 0, 1, {52, 5, 5, 0, 1}},
    {"$\xF0\x9F\x98\x80_", 0, 1, {OQ3_KIND_INVALID_IDENT, 6, 0, 0, 0}},
    {"\"0__1\"_", 0, 1, {OQ3_KIND_BIT_STR_TWICE, 7, 6, 0, 0}},
    {"/*_*/ 1_2_;", 1, 4, {OQ3_KIND_BLOCK_COMMENT, 5, 0, 0, 0, OQ3_KIND_WHITESPACE, 1, 0, 5, 0, OQ3_KIND_INT_DECIMAL, 4, 4, 6, 3, OQ3_KIND_SEMI, 1, 0, 10, 0}},
};

static const sample items[] = {
    {"", OQ3_MODE_STR, 0, {0}},
    {"", OQ3_MODE_CHAR, 1, {0, 0, OUT(OQ3_ERROR_ZERO_CHARS)}},
    {"", OQ3_MODE_BYTE, 1, {0, 0, OUT(OQ3_ERROR_ZERO_CHARS)}},
    {"a\\n", OQ3_MODE_STR, 2, {0, 1, 'a', 1, 3, 10}},
    {"\\u{1234567}", OQ3_MODE_BYTE, 1, {0, 11, OUT(OQ3_ERROR_OVERLONG_UNICODE_ESCAPE)}},
    {"\\u{D800}", OQ3_MODE_BYTE, 1, {0, 8, OUT(OQ3_ERROR_UNICODE_ESCAPE_IN_BYTE)}},
    {"\\u{D800}", OQ3_MODE_STR, 1, {0, 8, OUT(OQ3_ERROR_LONE_SURROGATE_UNICODE_ESCAPE)}},
    {"\\\n\n\xC2\xA0", OQ3_MODE_STR, 3, {0, 3, OUT(OQ3_WARNING_MULTIPLE_SKIPPED_LINES), 0, 5, OUT(OQ3_WARNING_UNSKIPPED_WHITESPACE), 3, 5, 0xA0}},
    {"\\\r", OQ3_MODE_RAW_STR, 2, {0, 1, '\\', 1, 2, OUT(OQ3_ERROR_BARE_CARRIAGE_RETURN_IN_RAW_STRING)}},
    {"\xC2\xA0", OQ3_MODE_BYTE_STR, 1, {0, 2, OUT(OQ3_ERROR_NON_ASCII_CHAR_IN_BYTE)}},
};

static void lists(void) {
    size_t i;
    for (i = 0; i < sizeof tokens / sizeof *tokens; i++) {
        const sample *s = tokens + i;
        check(fills(oq3_tokenize, OQ3_WORDS, BYTES(s->text), strlen(s->text), s->selector, s->want, s->n), s->text, __LINE__);
        check(fills(tokenize_rows, OQ3_WORDS, BYTES(s->text), strlen(s->text), s->selector, s->want, s->n), s->text, __LINE__);
    }
    for (i = 0; i < sizeof items / sizeof *items; i++) {
        const sample *s = items + i;
        check(fills(oq3_unescape_literal, OQ3_ITEM_WORDS, BYTES(s->text), strlen(s->text), s->selector, s->want, s->n), s->text, __LINE__);
    }
    /* an array of structs has the list's layout */
    {
        oq3_token row[2];
        CHECK(is(oq3_tokenize(BYTES("a;"), 2, OQ3_DEFAULT_PROFILE, (uint32_t *)row, OQ3_WORDS * 2), 0, 2));
        CHECK(row[0].kind == OQ3_KIND_IDENT && row[0].length == 1 && row[0].suffix == 0 && row[0].start == 0 && row[0].misplaced == 0);
        CHECK(row[1].kind == OQ3_KIND_SEMI && row[1].length == 1 && row[1].suffix == 0 && row[1].start == 1 && row[1].misplaced == 0);
        CHECK(is(oq3_tokenize_rows(BYTES(" \n10_x"), 6, OQ3_DEFAULT_PROFILE, row, 2), 0, 2));
        CHECK(row[0].kind == OQ3_KIND_WHITESPACE && row[0].length == 2 && row[0].suffix == 0 && row[0].start == 0 && row[0].misplaced == 0);
        CHECK(row[1].kind == OQ3_KIND_INT_DECIMAL && row[1].length == 4 && row[1].suffix == 3 && row[1].start == 2 && row[1].misplaced == 2);
    }
}

/* each refusal, in the order of the checks, and nothing written */
static void refusals(void) {
    static const uint8_t bad[] = {'a', 0xC2, 0xA0, 0xFF};
    fresh();
    CHECK(is(oq3_tokenize(bad, 4, 2, list, 0), 1, 0));
    CHECK(is(oq3_tokenize(bad, 4, 0, list, 0), 3, 3));
    CHECK(is(oq3_tokenize(bad + 3, 1, 0, list, WORDS), 3, 0));
    CHECK(is(oq3_tokenize(BYTES(";"), 1, 0, list, 0), 4, 1));
    CHECK(is(oq3_tokenize_rows(bad, 4, 2, (oq3_token *)list, 0), 1, 0));
    CHECK(is(oq3_tokenize_rows(bad, 4, 1, (oq3_token *)list, 9), 3, 3));
    CHECK(is(oq3_tokenize_rows(bad, 3, 0, (oq3_token *)list, 1), 4, 2));
    CHECK(is(oq3_renewal_key(bad, 4, UINT32_MAX, key, 0), 1, 0));
    CHECK(is(oq3_renewal_key(bad, 4, 1, key, KEY), 3, 3));
    CHECK(is(oq3_renewal_key(BYTES(";"), 1, 0, NULL, 0), 4, 1));
    CHECK(is(oq3_unescape_literal(bad, 4, 7, list, 0), 1, 0));
    CHECK(is(oq3_unescape_literal(bad, 4, 1, list, 0), 3, 3));
    CHECK(is(oq3_unescape_literal(bad, 3, 1, list, 5), 4, 2));
    CHECK(is(oq3_unescape_part(bad, 4, 1, 9, 7, list, WORDS), 1, 0));
    CHECK(is(oq3_unescape_part(bad, 4, 1, 9, 1, list, WORDS), 3, 2));
    CHECK(is(oq3_unescape_part(bad, 4, 0, 3, 1, list, 5), 4, 2));
    CHECK(clean(0, 0));
    CHECK(is(oq3_is_ident(bad, 4), 3, 3));
    CHECK(is(oq3_unescape_char(bad, 4), 3, 3));
    CHECK(is(oq3_unescape_byte(bad, 4), 3, 3));
    CHECK(oq3_default_profile() == OQ3_DEFAULT_PROFILE && OQ3_DEFAULT_PROFILE == OQ3_PROFILE_DEBUG);
    CHECK(is(oq3_check_text(bad, 4), 3, 3));
    CHECK(is(oq3_check_cut(bad, 4, 1), 3, 3));
    CHECK(is(oq3_check_cut(bad, 4, 2), 1, 0));
}

/* ---- direction marks: each call that cuts tokens or makes keys refuses them with 7, behind 3 and before 4, and no other call does */
static bool is_mark(uint32_t c) {
    return (0x202A <= c && c <= 0x202E) || (0x2066 <= c && c <= 0x2069);
}

/* the bytes before the first fault, character by character */
static size_t clean_bytes(const uint8_t *text, size_t n) {
    size_t at = 0;
    while (at < n) {
        oq3_char c = oq3_decode(text, n, at);
        if (c.code >= OQ3_NO_CHAR || is_mark(c.code))
            break;
        at += c.wide;
    }
    return at;
}

/* puts so many copies of a character behind the first n bytes of a text */
static size_t fill(uint8_t *text, size_t n, const char *c, size_t copies) {
    size_t wide = strlen(c);
    for (; copies > 0; copies--, n += wide)
        memcpy(text + n, c, wide);
    return n;
}

/* a character of three bytes with so many copies of another before it and behind it */
static void marked(uint32_t c, const char *other, size_t before, size_t behind) {
    static uint8_t text[1024];
    size_t at = fill(text, 0, other, before), n;
    bool mark = is_mark(c);
    oq3_comparison x;
    text[at] = (uint8_t)(0xE0 | c >> 12), text[at + 1] = (uint8_t)(0x80 | (c >> 6 & 0x3F)), text[at + 2] = (uint8_t)(0x80 | (c & 0x3F));
    n = fill(text, at + 3, other, behind);
    CHECK(oq3_clean_up_to(text, n) == (mark ? at : n) && oq3_valid_up_to(text, n) == n);
    CHECK(is(oq3_check_text(text, n), 0, 0) && is(oq3_check_cut(text, n, 0), mark ? OQ3_DIRECTION_MARK : 0, mark ? at : 0));
    CHECK(oq3_is_ident(text, n).number == 0 && is(oq3_unescape_literal(text, n, OQ3_MODE_STR, NULL, 0), 4, before + 1 + behind));
    text[n] = 0xFF;
    CHECK(is(oq3_check_cut(text, n + 1, 0), 3, n) && is(oq3_tokenize(text, n + 1, 0, NULL, 0), 3, n) && oq3_clean_up_to(text, n + 1) == (mark ? at : n));
    if (!mark)
        return;
    fresh();
    CHECK(is(oq3_tokenize(text, n, 0, NULL, 0), 7, at) && is(oq3_tokenize(text, n, 1, list, WORDS), 7, at));
    CHECK(is(oq3_tokenize_rows(text, n, 1, NULL, 0), 7, at) && is(oq3_tokenize_rows(text, n, 0, (oq3_token *)list, WORDS / OQ3_WORDS), 7, at));
    CHECK(is(oq3_renewal_key(text, n, 0, NULL, 0), 7, at) && is(oq3_renewal_key(text, n, 1, key, KEY), 7, at));
    CHECK(is(oq3_tokenize(text, n, 2, list, WORDS), 1, 0) && is(oq3_renewal_key(text, n, 2, key, KEY), 1, 0));
    CHECK(clean(0, 0));
    x = oq3_compare(text, n, text, n, 0);
    CHECK(x.verdict == OQ3_OLD_REFUSED && is(x.refusal, 7, at) && x.agreed == 0);
    x = oq3_compare(text, 0, text, n, 1);
    CHECK(x.verdict == OQ3_NEW_REFUSED && is(x.refusal, 7, at) && x.agreed == 0);
}

/* the nine and the characters beside them, at every place of blocks of characters of every width */
static void marks(void) {
    static const char *const others[] = {" ", "\xC3\xA9", "\xE2\x80\xA6", "\xE4\xB8\xAD", "\xF0\x9F\x98\x80"};
    size_t i, before, behind;
    uint32_t c;
    for (c = 0x2029; c <= 0x206A; c = c == 0x202F ? 0x2065 : c + 1)
        for (i = 0; i < sizeof others / sizeof *others; i++)
            for (before = 0; before < 70; before++)
                for (behind = 0; behind < 70; behind += 34)
                    marked(c, others[i], before, behind);
}

/* the empty text, with no memory behind it */
static void nothing(void) {
    fresh();
    CHECK(is(oq3_tokenize(NULL, 0, 0, NULL, 0), 0, 0));
    CHECK(is(oq3_tokenize(NULL, 0, 1, list, OQ3_WORDS), 0, 0));
    CHECK(is(oq3_tokenize_rows(NULL, 0, 0, NULL, 0), 0, 0));
    CHECK(is(oq3_tokenize_rows(NULL, 0, 1, (oq3_token *)list, 1), 0, 0));
    CHECK(is(oq3_renewal_key(NULL, 0, 0, NULL, 0), 0, 0));
    CHECK(is(oq3_unescape_literal(NULL, 0, OQ3_MODE_STR, NULL, 0), 0, 0));
    CHECK(is(oq3_unescape_literal(NULL, 0, OQ3_MODE_CHAR, NULL, 0), 4, 1));
    CHECK(is(oq3_unescape_part(NULL, 0, 3, 9, OQ3_MODE_STR, NULL, 0), 0, 0));
    CHECK(clean(0, 0));
    CHECK(is(oq3_is_ident(NULL, 0), 0, 0));
    CHECK(is(oq3_unescape_char(NULL, 0), 0, OUT(OQ3_ERROR_ZERO_CHARS)));
    CHECK(is(oq3_unescape_byte(NULL, 0), 0, OUT(OQ3_ERROR_ZERO_CHARS)));
    CHECK(is(oq3_check_text(NULL, 0), 0, 0) && is(oq3_check_cut(NULL, 0, 1), 0, 0) && is(oq3_check_cut(NULL, 0, 2), 1, 0));
    CHECK(oq3_valid_up_to(NULL, 0) == 0 && oq3_clean_up_to(NULL, 0) == 0);
    CHECK(oq3_decode(NULL, 0, 0).wide == 0 && oq3_decode(NULL, 0, SIZE_MAX).code == 0);
}

/* tokens far from the text's first byte: behind a line comment of so many bytes, an LF and a number; and an underscore so far into one */
static void far_off(uint8_t *at, size_t n) {
    uint32_t want[3 * OQ3_WORDS] = {OQ3_KIND_LINE_COMMENT, 0, 0, 0, 0, OQ3_KIND_WHITESPACE, 1, 0, 0, 0, OQ3_KIND_INT_DECIMAL, 2, 2, 0, 1};
    uint32_t alone[OQ3_WORDS] = {OQ3_KIND_INT_DECIMAL, 0, 0, 0, 0};
    want[1] = want[8] = alone[4] = (uint32_t)n;
    want[13] = alone[1] = alone[2] = (uint32_t)n + 1;
    memcpy(at, "//", 2);
    memcpy(at + n, "\n7_", 3);
    CHECK(fills_in(3 * OQ3_WORDS, oq3_tokenize, at, n + 3, 0, want, 3, 3 * OQ3_WORDS) && fills_in(3 * OQ3_WORDS, tokenize_rows, at, n + 3, 1, want, 3, 3 * OQ3_WORDS));
    memset(at, '1', n);
    at[n] = '_';
    CHECK(fills_in(OQ3_WORDS, oq3_tokenize, at, n + 1, 0, alone, 1, OQ3_WORDS) && fills_in(OQ3_WORDS, tokenize_rows, at, n + 1, 1, alone, 1, OQ3_WORDS));
    memset(at, 0, n + 3);
}

/* one byte more than the longest text: memory that is reserved, of which little is touched */
static void too_long(void) {
    size_t more = (size_t)OQ3_LONGEST + 1;
    void *at = mmap(NULL, more, 3 /* PROT_READ | PROT_WRITE */, 0x4022 /* MAP_PRIVATE | MAP_ANONYMOUS | MAP_NORESERVE */, -1, 0);
    const uint8_t *text = (const uint8_t *)at;
    oq3_comparison c;
    if (at == (void *)-1) {
        printf("test: no room for a text of 4 GiB, refusal 2 and far tokens are not tried\n");
        return;
    }
    fresh();
    CHECK(is(oq3_tokenize(text, more, 0, list, 0), 2, 0));
    CHECK(is(oq3_tokenize(text, more, 2, list, 0), 1, 0));
    CHECK(is(oq3_tokenize_rows(text, more, 0, (oq3_token *)list, 9), 2, 0));
    CHECK(is(oq3_renewal_key(text, more, 1, key, KEY), 2, 0));
    CHECK(is(oq3_unescape_literal(text, more, 6, list, WORDS), 2, 0));
    CHECK(is(oq3_unescape_part(text, more, 0, more, 1, list, WORDS), 2, 0));
    CHECK(is(oq3_unescape_part(text, more, more, more, 1, list, WORDS), 0, 0));
    CHECK(clean(0, 0));
    CHECK(is(oq3_is_ident(text, more), 2, 0));
    CHECK(is(oq3_unescape_char(text, more), 2, 0) && is(oq3_unescape_byte(text, more), 2, 0));
    CHECK(is(oq3_check_text(text, more), 2, 0) && is(oq3_check_cut(text, more, 0), 2, 0) && is(oq3_check_cut(text, more, 3), 1, 0));
    c = oq3_compare(text, more, text, more, 0);
    CHECK(c.verdict == OQ3_OLD_REFUSED && is(c.refusal, 2, 0) && c.agreed == 0);
    c = oq3_compare(text, 1, text, more, 0);
    CHECK(c.verdict == OQ3_NEW_REFUSED && is(c.refusal, 2, 0) && c.agreed == 0);
    CHECK(oq3_place_of(text, more, 3).line == 1 && oq3_place_of(text, more, 3).column == 4);
    CHECK(oq3_decode(text, more, more - 1).code == 0 && oq3_decode(text, more, more - 1).wide == 1 && oq3_decode(text, more, more).wide == 0);
    far_off(at, 70000);
    /* a direction mark is told behind it */
    memcpy(at, "\xE2\x80\xAE", 3);
    CHECK(is(oq3_tokenize(text, more, 0, list, 0), 2, 0) && is(oq3_renewal_key(text, more, 1, key, KEY), 2, 0) && is(oq3_check_cut(text, more, 0), 2, 0));
    CHECK(oq3_clean_up_to(text, more) == 0);
}

static void keys(void) {
    static const uint8_t want[22] = {5, 1, 0, 0, 0, 0x81, 0x78, 0x19, 0x28, 3, 0, 0, 0, 3, 0, 0, 0, 0x83, 0x30, 0x62, 0x31, 0x0A};
    const uint8_t *text = BYTES("x=0b1;//t");
    size_t room;
    for (room = 0; room <= 120; room++) {
        bool enough = sizeof want <= room;
        fresh();
        CHECK(is(oq3_renewal_key(text, 9, 0, key, room), enough ? OQ3_DONE : OQ3_ROOM_TOO_SMALL, sizeof want));
        CHECK(clean(0, enough ? sizeof want : 0) && (!enough || memcmp(key, want, sizeof want) == 0));
    }
}

/* ---- two texts compared */
static bool seen(oq3_sight s, uint32_t kind, size_t start, size_t length) {
    return s.kind == kind && s.start == start && s.length == length;
}

static bool found(oq3_comparison c, oq3_comparison want) {
    return c.verdict == want.verdict && is(c.refusal, want.refusal.number, want.refusal.also) && c.agreed == want.agreed
           && seen(c.in_old, want.in_old.kind, want.in_old.start, want.in_old.length) && seen(c.in_new, want.in_new.kind, want.in_new.start, want.in_new.length);
}

static const struct {
    const char *older, *newer;
    uint32_t profile;
    oq3_comparison want;
} pairs[] = {
    {"", "", 0, {OQ3_SAME, {0, 0}, 0, {0, 0, 0}, {0, 0, 0}}},
    {"a b", "a  /* x */ b", 0, {OQ3_SAME, {0, 0}, 2, {0, 3, 0}, {0, 12, 0}}},
    {"1s", "//\n1 s\n", 1, {OQ3_SAME, {0, 0}, 2, {0, 2, 0}, {0, 7, 0}}},
    {"a b", "a c", 0, {OQ3_DIFFERENT, {0, 0}, 1, {5, 2, 1}, {5, 2, 1}}},
    {"a b", "ab", 0, {OQ3_DIFFERENT, {0, 0}, 0, {5, 0, 1}, {5, 0, 2}}},
    {"a", " a;b", 0, {OQ3_DIFFERENT, {0, 0}, 1, {0, 1, 0}, {10, 2, 1}}},
    {" a;b", "a", 0, {OQ3_DIFFERENT, {0, 0}, 1, {10, 2, 1}, {0, 1, 0}}},
    {"x /* y", "x", 0, {OQ3_DIFFERENT, {0, 0}, 1, {3, 2, 4}, {0, 1, 0}}},
    {"pragma a", "pragma  a", 0, {OQ3_SAME, {0, 0}, 2, {0, 8, 0}, {0, 9, 0}}},
    {"pragma a", "pragma  a", 1, {OQ3_DIFFERENT, {0, 0}, 0, {8, 0, 8}, {8, 0, 9}}},
    {"1.5s", "1.5e", 0, {OQ3_DIFFERENT, {0, 0}, 0, {52, 0, 3}, {53, 0, 4}}},
    {"a\xFF", "b", 0, {OQ3_OLD_REFUSED, {3, 1}, 0, {0, 0, 0}, {0, 0, 0}}},
    {"a", "\xFF", 1, {OQ3_NEW_REFUSED, {3, 0}, 0, {0, 0, 0}, {0, 0, 0}}},
    {"a\xFF", "\xFF", 0, {OQ3_OLD_REFUSED, {3, 1}, 0, {0, 0, 0}, {0, 0, 0}}},
    {"a", "a", 2, {OQ3_OLD_REFUSED, {1, 0}, 0, {0, 0, 0}, {0, 0, 0}}},
    {"a\xFF", "a", UINT32_MAX, {OQ3_OLD_REFUSED, {1, 0}, 0, {0, 0, 0}, {0, 0, 0}}},
};

/* a model of it over the lists of oq3_tokenize: the next token that counts, and where it stands */
typedef struct walker {
    uint32_t list[WORDS];
    size_t n, next, at;
} walker;

static bool counted(walker *w) {
    for (; w->next < w->n; w->next++) {
        uint32_t kind = w->list[OQ3_WORDS * w->next];
        if (kind != OQ3_KIND_WHITESPACE && kind != OQ3_KIND_LINE_COMMENT && kind != OQ3_KIND_BLOCK_COMMENT)
            return true;
        w->at += w->list[OQ3_WORDS * w->next + 1];
    }
    return false;
}

static oq3_sight sight(walker *w) {
    oq3_sight s;
    bool some = counted(w);
    s.kind = some ? w->list[OQ3_WORDS * w->next] : 0;
    s.start = w->at;
    s.length = some ? w->list[OQ3_WORDS * w->next + 1] : 0;
    return s;
}

static oq3_comparison model(const uint8_t *older, size_t n, const uint8_t *newer, size_t m, uint32_t profile) {
    static walker a, b;
    oq3_answer first = oq3_tokenize(older, n, profile, a.list, WORDS), second = oq3_tokenize(newer, m, profile, b.list, WORDS);
    oq3_comparison c;
    memset(&c, 0, sizeof c);
    if (first.number != 0 || second.number != 0) {
        c.verdict = first.number != 0 ? OQ3_OLD_REFUSED : OQ3_NEW_REFUSED;
        c.refusal = first.number != 0 ? first : second;
        return c;
    }
    a.n = (size_t)first.also, b.n = (size_t)second.also;
    a.next = a.at = b.next = b.at = 0;
    /* alike in kind, length, suffix start and bytes */
    while (counted(&a) && counted(&b) && memcmp(a.list + OQ3_WORDS * a.next, b.list + OQ3_WORDS * b.next, sizeof(uint32_t[3])) == 0
           && memcmp(older + a.at, newer + b.at, a.list[OQ3_WORDS * a.next + 1]) == 0) {
        a.at += a.list[OQ3_WORDS * a.next++ + 1];
        b.at += b.list[OQ3_WORDS * b.next++ + 1];
        c.agreed++;
    }
    c.verdict = counted(&a) || counted(&b) ? OQ3_DIFFERENT : OQ3_SAME;
    c.in_old = sight(&a);
    c.in_new = sight(&b);
    return c;
}

/* and of a line and a column: LFs are counted from the start, and back to the last one the bytes that begin a character */
static bool placed(const uint8_t *text, size_t n, size_t at) {
    oq3_place p = oq3_place_of(text, n, at);
    size_t i, line = 1, column = 1, end = at < n ? at : n;
    for (i = 0; i < end; i++)
        line += text[i] == '\n';
    for (i = end; 0 < i && text[i - 1] != '\n'; i--)
        column += (text[i - 1] & 0xC0) != 0x80;
    return p.line == line && p.column == column;
}

static bool all_placed(const uint8_t *text, size_t n) {
    size_t at;
    for (at = 0; at < n + 3; at++)
        if (!placed(text, n, at))
            return false;
    return placed(text, n, SIZE_MAX);
}

static bool at_place(const char *text, size_t at, size_t line, size_t column) {
    oq3_place p = oq3_place_of(BYTES(text), strlen(text), at);
    return p.line == line && p.column == column;
}

static void comparisons(void) {
    size_t i;
    for (i = 0; i < sizeof pairs / sizeof *pairs; i++) {
        const uint8_t *older = BYTES(pairs[i].older), *newer = BYTES(pairs[i].newer);
        size_t n = strlen(pairs[i].older), m = strlen(pairs[i].newer);
        check(found(oq3_compare(older, n, newer, m, pairs[i].profile), pairs[i].want), pairs[i].newer, __LINE__);
        check(found(model(older, n, newer, m, pairs[i].profile), pairs[i].want), pairs[i].newer, __LINE__);
    }
    CHECK(found(oq3_compare(NULL, 0, NULL, 0, 1), pairs[0].want));
    CHECK(oq3_compare(NULL, 0, BYTES("a"), 1, 0).in_new.length == 1 && oq3_compare(BYTES("a"), 1, NULL, 0, 0).in_old.length == 1);
    CHECK(at_place("", 0, 1, 1) && at_place("", 9, 1, 1) && oq3_place_of(NULL, 0, SIZE_MAX).column == 1);
    CHECK(at_place("ab\ncd", 0, 1, 1) && at_place("ab\ncd", 2, 1, 3) && at_place("ab\ncd", 3, 2, 1) && at_place("ab\ncd", 5, 2, 3) && at_place("ab\ncd", SIZE_MAX, 2, 3));
    CHECK(at_place("\xCE\xB8z\r\n\n", 2, 1, 2) && at_place("\xCE\xB8z\r\n\n", 3, 1, 3) && at_place("\xCE\xB8z\r\n\n", 4, 1, 4) && at_place("\xCE\xB8z\r\n\n", 6, 3, 1));
    CHECK(at_place("\xFF\x80\xC0", 3, 1, 3) && at_place("\t\t", 2, 1, 3));
}

/* ---- characters */
/* a model of UTF-8 by the values that sequences have, and not by their bytes: the shortest form of a scalar value, or none */
static bool read_as(const uint8_t *text, size_t n, size_t at) {
    static const uint32_t least[5] = {0, 0, 0x80, 0x800, 0x10000};
    oq3_char c = oq3_decode(text, n, at);
    uint32_t code, i, wide;
    if (n <= at)
        return c.code == 0 && c.wide == 0;
    code = text[at];
    wide = code < 0x80 ? 1 : code < 0xC0 ? 0 : code < 0xE0 ? 2 : code < 0xF0 ? 3 : code < 0xF8 ? 4 : 0;
    if (1 < wide)
        code &= 0x7FU >> wide;
    for (i = 1; i < wide; i++) {
        if (n <= at + i || (text[at + i] & 0xC0) != 0x80) {
            wide = 0;
            break;
        }
        code = code << 6 | (text[at + i] & 0x3FU);
    }
    if (wide == 0 || code < least[wide] || 0x10FFFF < code || (0xD800 <= code && code < 0xE000)) {
        code = OQ3_NO_CHAR + text[at];
        wide = 1;
    }
    return c.code == code && c.wide == wide;
}

static bool all_read(const uint8_t *text, size_t n) {
    size_t at;
    for (at = 0; at < n + 3; at++)
        if (!read_as(text, n, at))
            return false;
    return read_as(text, n, SIZE_MAX);
}

/* ---- a text that comes in parts */

/* memory with nothing before it and behind it that may be read or written. A slice lies at one of its ends, and beside it what no call may change */
enum { PEN = 1 << 17, BESIDE = 64 };
typedef struct pen {
    uint8_t *from, *at;
    size_t n;
} pen;
static pen chunks, carries, rooms;

/* a slice of so many bytes, of A5, at the lower or the upper end */
static uint8_t *lend(pen *p, size_t n, bool low) {
    size_t around = PEN < n + BESIDE ? PEN : n + BESIDE;
    memset(low ? p->from : p->from + PEN - around, 0xA5, around);
    p->at = low ? p->from : p->from + PEN - n;
    p->n = n;
    return p->at;
}

static bool fence(pen *p) {
    uint8_t *all = (uint8_t *)mmap(NULL, 3 * PEN, 0, 0x4022 /* MAP_PRIVATE | MAP_ANONYMOUS | MAP_NORESERVE */, -1, 0);
    if (all == (uint8_t *)-1 || mprotect(all + PEN, PEN, 3 /* PROT_READ | PROT_WRITE */) != 0)
        return false;
    p->from = all + PEN;
    lend(p, 0, true);
    return true;
}

/* nothing beside the slice has changed */
static bool kept_in(const pen *p) {
    const uint8_t *beside = p->at == p->from ? p->at + p->n : p->at - BESIDE;
    size_t i;
    for (i = 0; i < BESIDE && p->n + BESIDE <= PEN; i++)
        if (beside[i] != 0xA5)
            return false;
    return true;
}

static bool all_kept_in(void) {
    return kept_in(&chunks) && kept_in(&carries) && kept_in(&rooms);
}

/* a call with what is lent; the finish where there is to be no chunk */
static oq3_fed call_with(oq3_lexer x, bool ends) {
    uint32_t *into = (uint32_t *)(void *)rooms.at;
    size_t room = rooms.n / 4;
    return ends ? oq3_finish(x, carries.at, carries.n, into, room) : oq3_feed(x, chunks.at, chunks.n, carries.at, carries.n, into, room);
}

/* each field but a byte that none has */
static bool same_lexer(oq3_lexer a, oq3_lexer b) {
    return memcmp(a.own1, b.own1, sizeof a.own1) == 0 && memcmp(a.own2, b.own2, 3) == 0 && memcmp(a.own3, b.own3, sizeof a.own3) == 0 && a.own4 == b.own4
           && memcmp(a.own5, b.own5, sizeof a.own5) == 0;
}

static bool ended(oq3_lexer x) {
    oq3_fed a = oq3_feed(x, BYTES("a"), 1, NULL, 0, NULL, 0), b = oq3_finish(x, NULL, 0, NULL, 0);
    return is(a.answer, OQ3_NOT_OPEN, 0) && same_lexer(a.lexer, x) && is(b.answer, OQ3_NOT_OPEN, 0) && same_lexer(b.lexer, x);
}

/* the text of a token of the last call, whose chunk stands at `at`: in the chunk if it starts there, else in the carry, or lost to a short one */
static bool told(oq3_lexer x, const uint8_t *text, size_t at, size_t start, size_t length, bool roomy) {
    oq3_span s = oq3_feed_text(x, chunks.n, carries.n, start, length);
    if (!is(oq3_feed_text_number(x, chunks.at, chunks.n, carries.at, carries.n, start, length), s.number, 0))
        return false;
    if (s.number != OQ3_DONE)
        return s.number == OQ3_NOT_KEPT && start < at && !roomy && s.which == OQ3_NOWHERE && s.at == 0 && s.length == 0;
    if (s.which != (start < at ? OQ3_IN_CARRY : OQ3_IN_CHUNK) || s.length != length)
        return false;
    return memcmp((s.which == OQ3_IN_CARRY ? carries.at : chunks.at) + s.at, text + start, length) == 0;
}

/* how many of n tokens have two whole characters behind them in the first bytes of a text */
static size_t decided(const uint8_t *text, size_t fed, const uint32_t *want, size_t n) {
    size_t at = 0, before = 0, earlier = 0, whole = 0, i;
    for (; at < fed && oq3_decode(text, fed, at).code < OQ3_NO_CHAR; whole++) {
        earlier = before;
        before = at;
        at += oq3_decode(text, fed, at).wide;
    }
    for (i = 0; i < n && 2 <= whole && want[OQ3_WORDS * i + 3] + want[OQ3_WORDS * i + 1] <= earlier; i++)
        ;
    return i;
}

/*
 * A text in chunks of so many bytes, with a carry of so many. Where it is accepted, `want` are its n tokens: each call hands out those that are decided, and their
 * texts are told. Else the first fault is told, and the lexer has ended.
 */
static bool parted(const uint8_t *text, size_t len, uint32_t profile, size_t step, size_t carry, const uint32_t *want, size_t n) {
    oq3_lexer x = oq3_start(profile);
    size_t at = 0, given = 0, fault = clean_bytes(text, len), i, size;
    bool ends = false;
    oq3_fed f;
    lend(&carries, carry, step % 2 == 0);
    for (; !ends; at += size) {
        ends = at == len;
        size = len - at < step ? len - at : step;
        memcpy(lend(&chunks, size, carry % 2 == 0), text + at, size);
        lend(&rooms, 4 * OQ3_WORDS * (size + 5), step % 2 != 0);
        f = call_with(x, ends);
        if (!all_kept_in())
            return false;
        if (f.answer.number != OQ3_DONE)
            return is(f.answer, oq3_decode(text, len, fault).code < OQ3_NO_CHAR ? OQ3_DIRECTION_MARK : OQ3_NOT_UTF8, fault) && fault < len && ended(f.lexer);
        x = f.lexer;
        if (fault < len)
            continue;
        if (given + f.answer.also != (ends ? n : decided(text, at + size, want, n)) || memcmp(rooms.at, want + OQ3_WORDS * given, 4 * OQ3_WORDS * (size_t)f.answer.also) != 0)
            return false;
        for (i = 0; i < f.answer.also; i++, given++)
            if (!told(x, text, at, want[OQ3_WORDS * given + 3], want[OQ3_WORDS * given + 1], len <= carry))
                return false;
    }
    return fault == len && ended(x);
}

/* chunks of several lengths, and carries that are none, short and long */
static bool all_parted(const uint8_t *text, size_t len, uint32_t profile) {
    static uint32_t want[WORDS];
    oq3_answer a = oq3_tokenize(text, len, profile, want, WORDS);
    size_t steps[] = {1, 2, 3, 5, 64, 0}, held[] = {0, 3, 17, 0}, i, k;
    steps[5] = len + 1, held[3] = len;
    for (i = 0; i < sizeof steps / sizeof *steps; i++)
        for (k = 0; k < sizeof held / sizeof *held; k++)
            if (!parted(text, len, profile, steps[i], held[k], want, a.number == OQ3_DONE ? (size_t)a.also : 0))
                return false;
    return true;
}

/* what the fields of a lexer are, by their values behind a call: the layout is that of the archive */
static void layout(void) {
    oq3_fed f;
    uint32_t *into = (uint32_t *)(void *)lend(&rooms, 4 * OQ3_WORDS * 9, false);
    lend(&carries, 8, false);
    f = oq3_feed(oq3_start(1), BYTES("ab;"), 3, carries.at, 8, into, OQ3_WORDS * 9);
    CHECK(is(f.answer, 0, 0) && f.lexer.own1[0] == 1 && f.lexer.own1[1] == 0 && f.lexer.own1[14] == 0 && f.lexer.own1[15] == 0);
    CHECK(f.lexer.own3[0] == 3 && f.lexer.own3[1] == 0 && f.lexer.own3[2] == 0 && f.lexer.own3[3] == 0 && f.lexer.own3[4] == 3 && f.lexer.own4 == 8);
    CHECK(f.lexer.own5[0] == 0 && f.lexer.own5[1] == 3);
    f = oq3_feed(f.lexer, BYTES(" c\xF0\x9F\x98"), 5, carries.at, 7, into, OQ3_WORDS * 9);
    CHECK(is(f.answer, 0, 2) && into[3] == 0 && into[1] == 2 && into[8] == 2 && into[OQ3_WORDS] == OQ3_KIND_SEMI);
    CHECK(f.lexer.own1[14] == 3 && f.lexer.own1[15] == 3 && memcmp(f.lexer.own2, "\xF0\x9F\x98", 3) == 0);
    CHECK(f.lexer.own3[0] == 8 && f.lexer.own3[1] == 0 && f.lexer.own3[2] == 3 && f.lexer.own3[3] == 3 && f.lexer.own3[4] == 5 && f.lexer.own4 == 7);
    CHECK(f.lexer.own5[0] == 3 && f.lexer.own5[1] == 7 && memcmp(carries.at, "ab; c\xF0\x9F\xA5", 8) == 0);
}

/* each refusal, in the order of the checks */
static void refused_parts(void) {
    static const uint8_t bad[] = {'a', 0xFF};
    oq3_lexer x = oq3_start(2), y;
    oq3_fed f;
    uint32_t *into = (uint32_t *)(void *)lend(&rooms, 4 * OQ3_WORDS * 9, true);
    lend(&carries, 8, true);
    f = oq3_feed(x, bad, 2, carries.at, 8, into, 0);
    CHECK(is(f.answer, OQ3_UNKNOWN_SELECTOR, 0) && same_lexer(f.lexer, x) && is(oq3_finish(f.lexer, NULL, 0, NULL, 0).answer, OQ3_UNKNOWN_SELECTOR, 0));
    x = oq3_start(OQ3_DEFAULT_PROFILE);
    f = oq3_feed(x, bad, 2, carries.at, 8, into, 0);
    CHECK(is(f.answer, OQ3_NOT_UTF8, 1) && ended(f.lexer));
    f = oq3_feed(x, BYTES("a\xE2\x80\xAE\xFF"), 5, carries.at, 8, into, 0);
    CHECK(is(f.answer, OQ3_DIRECTION_MARK, 1) && ended(f.lexer));
    f = oq3_feed(x, BYTES("a\xE2\x80"), 3, carries.at, 8, into, OQ3_WORDS);
    CHECK(is(f.answer, 0, 0) && is(oq3_finish(f.lexer, carries.at, 8, into, OQ3_WORDS).answer, OQ3_NOT_UTF8, 1));
    y = f.lexer;
    f = oq3_feed(y, BYTES("\xAE"), 1, carries.at, 8, into, OQ3_WORDS);
    CHECK(is(f.answer, OQ3_DIRECTION_MARK, 1) && ended(f.lexer) && is(oq3_feed(y, BYTES("a"), 1, carries.at, 8, into, OQ3_WORDS).answer, OQ3_NOT_UTF8, 1));
    lend(&carries, 8, true), lend(&rooms, 4 * OQ3_WORDS * 9, true);
    f = oq3_feed(x, BYTES(";;;;"), 4, carries.at, 8, into, 2 * OQ3_WORDS - 1);
    CHECK(is(f.answer, OQ3_ROOM_TOO_SMALL, 2) && same_lexer(f.lexer, x) && into[0] == MARK && into[OQ3_WORDS] == MARK && carries.at[0] == 0xA5);
    f = oq3_feed(f.lexer, BYTES(";;;;"), 4, carries.at, 8, into, 2 * OQ3_WORDS);
    CHECK(is(f.answer, 0, 2) && into[0] == OQ3_KIND_SEMI && into[8] == 1 && into[2 * OQ3_WORDS] == MARK && memcmp(carries.at, ";;\xA5", 3) == 0);
    y = f.lexer;
    f = oq3_finish(y, carries.at, 8, into, OQ3_WORDS);
    CHECK(is(f.answer, OQ3_ROOM_TOO_SMALL, 2) && same_lexer(f.lexer, y));
    f = oq3_finish(f.lexer, carries.at, 8, into, 2 * OQ3_WORDS);
    CHECK(is(f.answer, 0, 2) && into[3] == 2 && ended(f.lexer));
    CHECK(oq3_feed_text(f.lexer, 0, 8, 2, 2).which == OQ3_IN_CARRY && oq3_feed_text(f.lexer, 1, 8, 2, 2).number == 1 && oq3_feed_text(f.lexer, 0, 7, 2, 2).number == 1);
    CHECK(oq3_feed_text(f.lexer, 0, 8, 2, 3).number == 1 && oq3_feed_text(f.lexer, 0, 8, 1, 1).number == 1 && oq3_feed_text(f.lexer, 0, 8, 2, 0).number == 1);
    CHECK(oq3_feed_text(f.lexer, 0, 8, 2, SIZE_MAX).number == 1 && oq3_feed_text(f.lexer, 0, 8, SIZE_MAX, 4).number == 1 && oq3_feed_text(f.lexer, 0, SIZE_MAX, 2, 1).number == 1);
    /* the limit counts all parts: a lexer to which all but three bytes were fed, none of which is left */
    x.own1[14] = x.own3[0] = OQ3_LONGEST - 3;
    f = oq3_feed(x, bad, 4, carries.at, 8, into, 0);
    CHECK(is(f.answer, OQ3_TOO_LONG, 0) && ended(f.lexer));
    f = oq3_feed(x, BYTES(";;;"), 3, carries.at, 8, into, OQ3_WORDS);
    CHECK(is(f.answer, 0, 1) && into[3] == OQ3_LONGEST - 3 && is(oq3_feed(f.lexer, BYTES(";"), 1, carries.at, 8, into, 0).answer, OQ3_TOO_LONG, 0));
    f = oq3_feed(f.lexer, NULL, 0, carries.at, 8, into, 0);
    CHECK(is(f.answer, 0, 0) && is(oq3_finish(f.lexer, carries.at, 8, into, 2 * OQ3_WORDS).answer, 0, 2) && into[8] == OQ3_LONGEST - 1);
    CHECK(all_kept_in());
}

static uint64_t seed = 20261116;

/* a number below n */
static uint32_t chance(uint32_t n) {
    seed ^= seed << 13;
    seed ^= seed >> 7;
    seed ^= seed << 17;
    return (uint32_t)((seed >> 32) % n);
}

/* bytes of which some are characters, and some pieces of these */
static void scribble(uint8_t *to, size_t n) {
    static const char pieces[] = "/*/*\n\n\"\"01_.eE+-xbo$@#pragma pragma ;;  \xC3\xA9\xF0\x9F\x98\x80\xE2\x80\xAE\xC2\xB5s";
    size_t i, from = chance(sizeof pieces - 1), sort = chance(4);
    for (i = 0; i < n; i++)
        to[i] = sort == 0 && chance(8) == 0 ? (uint8_t)chance(256) : (uint8_t)pieces[(sort < 2 ? chance(sizeof pieces - 1) : from + i) % (sizeof pieces - 1)];
}

/* a lexer behind some calls */
static oq3_lexer grown(void) {
    oq3_lexer x = oq3_start(chance(2));
    uint32_t calls = chance(4);
    for (; 0 < calls; calls--) {
        size_t n = chance(20);
        oq3_fed f;
        scribble(lend(&chunks, n, false), n);
        lend(&carries, chance(24), false), lend(&rooms, 4 * OQ3_WORDS * 30, false);
        f = call_with(x, chance(30) == 0);
        if (f.answer.number == OQ3_DONE)
            x = f.lexer;
    }
    return x;
}

static uint32_t odd_number(void) {
    static const uint32_t some[] = {0, 1, 2, 3, 4, 6, 127, 128, 0x7FF, 0x800, 0xFFFF, 0x10000, 0x10FFFF, 0x110000, 0x7FFFFFFF, 0xFFFFFFF0, UINT32_MAX - 1, UINT32_MAX};
    return chance(2) == 0 ? chance(70) : chance(2) == 0 ? some[chance(sizeof some / sizeof *some)] : (uint32_t)seed;
}

/* any bytes, or a lexer of which some fields were changed; in every other one what a running lexer has to have is then put right */
static oq3_lexer forged(void) {
    oq3_lexer x = grown();
    uint32_t changes = chance(6), i;
    if (chance(8) == 0)
        for (i = 0; i < sizeof x; i++)
            ((uint8_t *)&x)[i] = (uint8_t)chance(256);
    for (; 0 < changes; changes--)
        switch (chance(6)) {
        case 0: x.own2[chance(4)] = (uint8_t)chance(256); break;
        case 1: x.own3[chance(5)] = odd_number(); break;
        case 2: x.own4 = chance(2) == 0 ? chance(30) : SIZE_MAX - chance(3); break;
        case 3: x.own5[chance(2)] = odd_number(); break;
        default: x.own1[chance(16)] = odd_number(); break;
        }
    if (chance(2) == 0) {
        uint32_t held = x.own1[13], wide = held < 0x80 ? 1 : held < 0x800 ? 2 : held < 0x10000 ? 3 : held < 0x110000 ? 4 : 1;
        x.own1[0] = chance(2), x.own1[1] = 0, x.own1[2] = chance(3), x.own1[15] = chance(4) == 0 ? x.own1[15] : 0;
        if (chance(2) == 0)
            x.own1[3] = chance(25), x.own1[4] = odd_number(), x.own1[5] = chance(9);
        x.own3[0] = x.own1[14] + (x.own1[2] == 0 ? 0 : x.own1[6]) + (x.own1[2] < 2 ? 0 : wide) + (x.own1[15] < 3 ? x.own1[15] : 3);
    }
    return x;
}

/* a question has the same answer twice, and that lies inside what is lent */
static bool answers_twice(oq3_lexer x) {
    size_t start = chance(2) == 0 ? x.own3[1] + chance(8) : odd_number(), n = chance(8) == 0 ? SIZE_MAX - chance(9) : chance(20);
    size_t c = chance(4) == 0 ? chunks.n : x.own3[4], k = chance(4) == 0 ? carries.n : x.own4;
    oq3_span a = oq3_feed_text(x, c, k, start, n), b = oq3_feed_text(x, c, k, start, n);
    oq3_answer d = oq3_feed_text_number(x, chunks.at, chunks.n, carries.at, carries.n, start, n), e = oq3_feed_text_number(x, chunks.at, chunks.n, carries.at, carries.n, start, n);
    size_t most = a.which == OQ3_IN_CHUNK ? c : k;
    if (a.number != b.number || a.which != b.which || a.at != b.at || a.length != b.length || !is(d, e.number, e.also))
        return false;
    if (a.number != OQ3_DONE)
        return (a.number == 1 || a.number == 6) && a.which == OQ3_NOWHERE && a.at == 0 && a.length == 0;
    return (a.which == OQ3_IN_CHUNK || a.which == OQ3_IN_CARRY) && a.length == n && n != 0 && n <= most && a.at <= most - n;
}

/* a lexer that no call gave: nothing is read or written outside of what is lent, and the same call has the same outcome */
static bool forgery(unsigned long *taken) {
    static uint8_t chunk[64], carry[64], first_carry[64], first_list[4 * OQ3_WORDS * 64];
    oq3_lexer x = forged();
    size_t n = chance(13), m = chance(25), room = OQ3_WORDS * chance(22) + chance(OQ3_WORDS);
    bool low = chance(2) == 0, ends = chance(8) == 0;
    oq3_fed f, g;
    scribble(chunk, n), scribble(carry, m);
    memcpy(lend(&chunks, n, low), chunk, n), memcpy(lend(&carries, m, low), carry, m), lend(&rooms, 4 * room, low);
    f = call_with(x, ends);
    if (!all_kept_in() || memcmp(chunks.at, chunk, n) != 0)
        return false;
    memcpy(first_carry, carries.at, m), memcpy(first_list, rooms.at, 4 * room);
    memcpy(lend(&carries, m, low), carry, m), lend(&rooms, 4 * room, low);
    if (f.answer.number != OQ3_DONE && (memcmp(first_carry, carries.at, m) != 0 || memcmp(first_list, rooms.at, 4 * room) != 0))
        return false;
    /* 5, 1 and 4 hand it back, and 2, 3 and 7 end it */
    if (f.answer.number == OQ3_NOT_OPEN || f.answer.number == OQ3_UNKNOWN_SELECTOR || f.answer.number == OQ3_ROOM_TOO_SMALL ? !same_lexer(f.lexer, x) : (ends || f.answer.number != OQ3_DONE) && !ended(f.lexer))
        return false;
    *taken += f.answer.number == OQ3_DONE;
    g = call_with(x, ends);
    return is(f.answer, g.answer.number, g.answer.also) && same_lexer(f.lexer, g.lexer) && memcmp(first_carry, carries.at, m) == 0
           && memcmp(first_list, rooms.at, 4 * room) == 0 && (f.answer.number != OQ3_DONE || OQ3_WORDS * f.answer.also <= room) && answers_twice(x) && answers_twice(f.lexer);
}

static void in_parts(void) {
    unsigned long taken = 0, i, wrong = 0;
    if (!fence(&chunks) || !fence(&carries) || !fence(&rooms)) {
        check(false, "memory between pages that are shut", __LINE__);
        return;
    }
    layout();
    refused_parts();
    for (i = 0; i < sizeof tokens / sizeof *tokens; i++)
        check(all_parted(BYTES(tokens[i].text), strlen(tokens[i].text), tokens[i].selector), tokens[i].text, __LINE__);
    for (i = 0; i < 1000000; i++)
        wrong += !forgery(&taken);
    printf("test: of %lu forged lexers %lu took the call\n", i, taken);
    CHECK(wrong == 0 && 100000 < taken);
}

/* the modes, each with its answers: in double quotes, ASCII only, a prefix, raw */
static const bool modes[7][4] = {{0, 0, 0, 0}, {1, 0, 0, 0}, {0, 1, 1, 0}, {1, 1, 0, 0}, {1, 1, 1, 0}, {1, 0, 0, 1}, {1, 1, 1, 1}};

static bool mode_is(uint32_t mode, const bool *want) {
    return is(oq3_in_double_quotes(mode), 0, want[0]) && is(oq3_characters_should_be_ascii(mode), 0, want[1]) && is(oq3_is_unicode_escape_disallowed(mode), 0, want[1])
           && is(oq3_prefix_noraw(mode), 0, want[2]) && oq3_is_raw(mode) == want[3];
}

static bool no_mode(uint32_t mode) {
    return is(oq3_in_double_quotes(mode), 1, 0) && is(oq3_characters_should_be_ascii(mode), 1, 0) && is(oq3_is_unicode_escape_disallowed(mode), 1, 0)
           && is(oq3_prefix_noraw(mode), 1, 0) && !oq3_is_raw(mode);
}

static void singles(void) {
    /* on both sides of the surrogates and of the last character, and forms that are too long */
    static const uint8_t edges[] = {0xED, 0x9F, 0xBF, 0xED, 0xA0, 0x80, 0xEE, 0x80, 0x80, 0xF4, 0x8F, 0xBF, 0xBF, 0xF4,
                                    0x90, 0x80, 0x80, 0xC1, 0xBF, 0xE0, 0x9F, 0xBF, 0xF0, 0x8F, 0xBF, 0xBF, 0xF8, 0x80};
    uint32_t mode;
    for (mode = 0; mode < 7; mode++)
        CHECK(mode_is(mode, modes[mode]));
    CHECK(no_mode(7) && no_mode(8) && no_mode(UINT32_MAX));
    CHECK(no_mode(256 + OQ3_MODE_BYTE) && no_mode(65536 + OQ3_MODE_RAW_BYTE_STR));
    CHECK(oq3_is_xid_start('a') && oq3_is_xid_start(0x3B8) && !oq3_is_xid_start('_') && !oq3_is_xid_start('0'));
    CHECK(oq3_is_xid_continue('_') && oq3_is_xid_continue('0') && oq3_is_xid_continue(0x301) && !oq3_is_xid_continue('-'));
    CHECK(oq3_is_emoji('#') && oq3_is_emoji('7') && oq3_is_emoji(0x1F600) && !oq3_is_emoji('a') && !oq3_is_emoji(0x3B8));
    CHECK(oq3_is_white_space(' ') && oq3_is_white_space(0xA0) && oq3_is_white_space(0x3000) && !oq3_is_white_space('a') && !oq3_is_white_space(0x200E));
    CHECK(oq3_is_whitespace(' ') && oq3_is_whitespace(0x2029) && !oq3_is_whitespace('a') && !oq3_is_whitespace(0xA0) && !oq3_is_whitespace(UINT32_MAX));
    CHECK(oq3_is_id_start('_') && oq3_is_id_start(0x3B8) && !oq3_is_id_start('0') && !oq3_is_id_start(0xD800) && !oq3_is_id_start(0x110000));
    CHECK(oq3_is_id_continue('_') && oq3_is_id_continue('0') && !oq3_is_id_continue('-') && !oq3_is_id_continue(0x110000));
    CHECK(is(oq3_is_ident(BYTES("q_0"), 3), 0, 1) && is(oq3_is_ident(BYTES("0q"), 2), 0, 0) && is(oq3_is_ident(BYTES("q 0"), 3), 0, 0));
    CHECK(is(oq3_unescape_char(BYTES("\\x41"), 4), 0, 0x41) && is(oq3_unescape_char(BYTES("ab"), 2), 0, OUT(OQ3_ERROR_MORE_THAN_ONE_CHAR)));
    CHECK(is(oq3_unescape_byte(BYTES("\\xFF"), 4), 0, 0xFF) && is(oq3_unescape_byte(BYTES("\\u{41}"), 6), 0, OUT(OQ3_ERROR_UNICODE_ESCAPE_IN_BYTE)));
    CHECK(oq3_byte_from_char(0x1FF) == 0xFF && oq3_byte_from_char(UINT32_MAX - 1) == 0xFE && oq3_byte_from_char(7) == 7);
    CHECK(is(oq3_in_double_quotes(OQ3_MODE_STR), 0, 1) && is(oq3_in_double_quotes(OQ3_MODE_CHAR), 0, 0) && is(oq3_in_double_quotes(7), 1, 0));
    CHECK(is(oq3_characters_should_be_ascii(OQ3_MODE_BIT_STR), 0, 1) && is(oq3_characters_should_be_ascii(OQ3_MODE_RAW_STR), 0, 0) && is(oq3_characters_should_be_ascii(7), 1, 0));
    CHECK(is(oq3_is_unicode_escape_disallowed(OQ3_MODE_BYTE), 0, 1) && is(oq3_is_unicode_escape_disallowed(OQ3_MODE_STR), 0, 0) && is(oq3_is_unicode_escape_disallowed(8), 1, 0));
    CHECK(is(oq3_prefix_noraw(OQ3_MODE_BYTE_STR), 0, 1) && is(oq3_prefix_noraw(OQ3_MODE_BIT_STR), 0, 0) && is(oq3_prefix_noraw(UINT32_MAX), 1, 0));
    CHECK(is(oq3_is_fatal(OQ3_ERROR_NON_ASCII_CHAR_IN_BYTE), 0, 1) && is(oq3_is_fatal(OQ3_WARNING_UNSKIPPED_WHITESPACE), 0, 0));
    CHECK(is(oq3_is_fatal(0), 1, 0) && is(oq3_is_fatal(23), 1, 0));
    CHECK(is(oq3_check_text(BYTES("\0q"), 2), 0, 0) && is(oq3_check_cut(BYTES("\0q"), 2, OQ3_PROFILE_DEBUG), 0, 0));
    CHECK(oq3_valid_up_to(BYTES("a\xCE\xB8z\xCE"), 5) == 4 && oq3_valid_up_to(BYTES("abc"), 3) == 3);
    CHECK(oq3_clean_up_to(BYTES("a\xCE\xB8z\xCE"), 5) == 4 && oq3_clean_up_to(BYTES("abc"), 3) == 3);
    CHECK(oq3_clean_up_to(BYTES("a\xE2\x80\xAE\xFF"), 5) == 1 && oq3_valid_up_to(BYTES("a\xE2\x80\xAE\xFF"), 5) == 4);
    {
        oq3_char good = oq3_decode(BYTES("a\xCE\xB8"), 3, 1), bad = oq3_decode(BYTES("a\xCE\xB8"), 3, 2);
        CHECK(good.code == 0x3B8 && good.wide == 2 && bad.code == OQ3_NO_CHAR + 0xB8 && bad.wide == 1);
    }
    CHECK(all_read(edges, sizeof edges));
}

/* ---- the stack: it is painted, and after a call the lowest byte that was written tells how much the call took */
enum { DEPTH = 1 << 16 };
static volatile bool painting;

/*
 * Paints DEPTH bytes below its caller, or gives how far below `top` the lowest lies that is painted over. One function, told by a variable, so that
 * it lies in the same place both times; called out of line, else its array would lie in its caller.
 */
__attribute__((noinline)) static size_t below(const volatile uint8_t *top) {
    const uint64_t paint = (uint64_t)MARK << 32 | MARK;
    volatile uint64_t depth[DEPTH / 8];
    size_t i;
    for (i = 0; i < DEPTH / 8; i++)
        if (painting)
            depth[i] = paint;
        else if (depth[i] != paint)
            break;
    return (size_t)top - (size_t)(depth + i);
}

typedef void taker(const uint8_t *, size_t, uint32_t, size_t);

/* what a call takes, from here on: a little more than it takes by itself */
__attribute__((noinline)) static size_t took(taker *take, const uint8_t *text, size_t n, uint32_t selector, size_t room) {
    volatile uint8_t top = 0;
    painting = true;
    below(&top);
    painting = false;
    take(text, n, selector, room);
    return below(&top);
}

static void take_rows(const uint8_t *text, size_t n, uint32_t selector, size_t room) {
    oq3_tokenize_rows(text, n, selector % 2, (oq3_token *)list, room);
}

static void take_tokens(const uint8_t *text, size_t n, uint32_t selector, size_t room) {
    oq3_tokenize(text, n, selector % 2, list, OQ3_WORDS * room);
}

static void take_parts(const uint8_t *text, size_t n, uint32_t selector, size_t room) {
    oq3_fed f = oq3_feed(oq3_start(selector % 2), text, n, key, room, list, OQ3_WORDS * room);
    oq3_finish(f.lexer, key, room, list, OQ3_WORDS * room);
}

static void take_key(const uint8_t *text, size_t n, uint32_t selector, size_t room) {
    oq3_renewal_key(text, n, selector % 2, key, 11 * room);
}

static void take_comparison(const uint8_t *text, size_t n, uint32_t selector, size_t room) {
    oq3_compare(text, n, text, room, selector % 2);
}

static void take_others(const uint8_t *text, size_t n, uint32_t selector, size_t room) {
    size_t at;
    oq3_unescape_literal(text, n, selector, list, OQ3_ITEM_WORDS * room);
    oq3_unescape_part(text, n, 1, n, selector, list, OQ3_ITEM_WORDS * room);
    oq3_unescape_char(text, n), oq3_unescape_byte(text, n), oq3_is_ident(text, n);
    oq3_check_text(text, n), oq3_check_cut(text, n, selector), oq3_valid_up_to(text, n), oq3_clean_up_to(text, n), oq3_place_of(text, n, n);
    for (at = 0; at < n; at += oq3_decode(text, n, at).wide) {
        uint32_t c = oq3_decode(text, n, at).code;
        oq3_is_whitespace(c), oq3_is_id_start(c), oq3_is_id_continue(c), oq3_byte_from_char(c);
        oq3_is_xid_start(c), oq3_is_xid_continue(c), oq3_is_emoji(c), oq3_is_white_space(c);
    }
    oq3_in_double_quotes(selector), oq3_characters_should_be_ascii(selector), oq3_is_unicode_escape_disallowed(selector);
    oq3_prefix_noraw(selector), oq3_is_raw(selector), oq3_is_fatal(selector);
    oq3_feed_text(oq3_start(selector), n, room, 0, n), oq3_feed_text_number(oq3_start(selector), text, n, key, room, 0, n);
}

/* 20,000 bytes, by which the measure itself is tried */
static void take_known(const uint8_t *text, size_t n, uint32_t selector, size_t room) {
    volatile uint8_t known[20000];
    size_t i;
    (void)text, (void)n, (void)selector, (void)room;
    for (i = 0; i < sizeof known; i++)
        known[i] = 0;
}

static const struct {
    const char *name;
    taker *take;
    size_t most;
} takers[] = {
    {"oq3_tokenize_rows", take_rows, OQ3_STACK_TOKENIZE_ROWS}, {"oq3_tokenize", take_tokens, OQ3_STACK_CUT},
    {"oq3_feed, oq3_finish", take_parts, OQ3_STACK_CUT},       {"oq3_renewal_key", take_key, OQ3_STACK_CUT},
    {"oq3_compare", take_comparison, OQ3_STACK_CUT},           {"each other function", take_others, OQ3_STACK},
};

/* where rules turn, with a character behind that is not ASCII, so that each function reaches those that it calls */
static const char *const turning[] = {
    "", "\xFF", "x\xCE\xB8", "\xE4\xB8\xAD\xF0\x9F\x98\x80", "\\u{4\xC3\xA9}", "\\u{1F600}", "\\x4\xC3\xA9", "\\\n\n \xC2\xA0", "\r\xC3\xA9\\q",
    "1.5e\xC3\xA9 1.5e+3\xC3\xA9 0x1.5\xC2\xB5s 0b1_\xCE\xBCz 1e\xC3\xA9 0o\xC3\xA9 1.\xC3\xA9 2..\xC3\xA9 3dt 4ns 0x_f_\xC3\xA9 1_.5_e_\xC3\xA9",
    "\"01_1\"\xC3\xA9 \"0__1\"x \"0\n\" \"\xC3\xA9\\\"\" $_\xC3\xA9 $0 @\xC3\xA9 x\n#pragma \xC3\xA9\npragma z\xC3\xA9\n#prag\xC3\xA9 ' ; =\xC3\xA9",
    "/* /* \xC3\xA9 */ */ // \xC3\xA9\n\xE2\x80\xA8 a\xF0\x9F\x98\x80 /* \"",
};

static void stacks(void) {
    size_t i, k, most, known = took(take_known, NULL, 0, 0, 0);
    uint32_t selector;
    CHECK(20000 < known && known < 20000 + 1000);
    for (i = 0; i < sizeof takers / sizeof *takers; i++) {
        most = 0;
        for (k = 0; k < sizeof turning / sizeof *turning; k++)
            for (selector = 0; selector < 7; selector++) {
                size_t n = strlen(turning[k]), none = took(takers[i].take, BYTES(turning[k]), n, selector, 0), much = took(takers[i].take, BYTES(turning[k]), n, selector, n + 1);
                most = most < none ? none : most;
                most = most < much ? much : most;
            }
        printf("test: %s takes up to %lu bytes of stack, of %lu\n", takers[i].name, (unsigned long)most, (unsigned long)takers[i].most);
        check(most < takers[i].most, takers[i].name, __LINE__);
    }
}

/* ---- the vectors: each line is answered anew and compared */
static char line[1 << 17], said[1 << 19];
static uint8_t text[TEXT], other[TEXT];
static size_t text_len, used;
static const char *rest, *wanted;

static void say(uint64_t n, const char *before) {
    used += (size_t)snprintf(said + used, sizeof said - used, "%s%llu", before, (unsigned long long)n);
}

static void say_hex(const char *before, const uint8_t *from, size_t n) {
    size_t i;
    used += (size_t)snprintf(said + used, sizeof said - used, "%s%s", before, n == 0 ? "-" : "");
    for (i = 0; i < n; i++)
        used += (size_t)snprintf(said + used, sizeof said - used, "%02x", from[i]);
}

static bool read_line(void) {
    size_t n = 0;
    int c;
    while ((c = getchar()) >= 0 && c != '\n' && n + 1 < sizeof line)
        line[n++] = (char)c;
    line[n] = 0;
    return 0 < n;
}

/* so many words or bytes to lend, as a line asks for: as many as there are at most, which then fails to compare */
static size_t at_most(uint64_t n, size_t most) {
    return n < most ? (size_t)n : most;
}

static uint64_t number(void) {
    uint64_t n = 0;
    while (*rest == ' ')
        rest++;
    for (; '0' <= *rest && *rest <= '9'; rest++)
        n = 10 * n + (uint64_t)(*rest - '0');
    return n;
}

static unsigned digit(char c) {
    return (unsigned)(c <= '9' ? c - '0' : c - 'a' + 10);
}

static size_t hex(uint8_t *into) {
    size_t n = 0;
    while (*rest == ' ')
        rest++;
    if (*rest == '-')
        rest++;
    for (; *rest != ' ' && *rest != ':' && *rest != 0 && n < TEXT; rest += 2)
        into[n++] = (uint8_t)(16 * digit(rest[0]) + digit(rest[1]));
    return n;
}

/* ---- the members of each property, range by range */
typedef struct property {
    const char *name;
    bool (*ask)(uint32_t);
    uint32_t table[2048];
    size_t words;
} property;
enum { XID_START, XID_CONTINUE, PROPERTIES = 7 };
static property properties[PROPERTIES] = {{"is_xid_start", oq3_is_xid_start, {0}, 0},     {"is_xid_continue", oq3_is_xid_continue, {0}, 0},
                                          {"is_emoji", oq3_is_emoji, {0}, 0},             {"is_white_space", oq3_is_white_space, {0}, 0},
                                          {"is_whitespace", oq3_is_whitespace, {0}, 0},   {"is_id_start", oq3_is_id_start, {0}, 0},
                                          {"is_id_continue", oq3_is_id_continue, {0}, 0}};

static bool has(const property *p, uint32_t c) {
    size_t i;
    for (i = 0; i < p->words; i += 2)
        if (p->table[i] <= c && c <= p->table[i + 1])
            return true;
    return false;
}

static uint32_t hex_number(void) {
    uint32_t n = 0;
    while (*rest == ' ')
        rest++;
    for (; *rest != ' ' && *rest != 0; rest++)
        n = 16 * n + digit(*rest);
    return n;
}

/* NAME asked N members M ranges R, and the first and the last of each range */
static void read_property(property *p) {
    size_t n = strlen(p->name), ranges, i;
    uint64_t members, sum = 0;
    bool named = read_line() && memcmp(line, p->name, n) == 0 && memcmp(line + n, " asked ", 7) == 0;
    check(named, p->name, __LINE__);
    if (!named)
        return;
    rest = line + n + 7;
    number();
    rest += strlen(" members ");
    members = number();
    rest += strlen(" ranges ");
    ranges = (size_t)number();
    for (i = 0; i < ranges && p->words + 2 <= 2048 && read_line(); i++) {
        rest = line;
        p->table[p->words++] = hex_number();
        p->table[p->words++] = hex_number();
        sum += p->table[2 * i + 1] - p->table[2 * i] + 1;
    }
    check(sum == members && p->words == 2 * ranges && 0 < ranges, p->name, __LINE__);
}

/* the test is asked at the edges of each range, at every 97th number and where there are no characters */
static void ask_property(const property *p) {
    static const uint32_t odd[] = {0xD7FF, 0xD800, 0xDFFF, 0xE000, 0xFFFF, 0x10FFFF, 0x110000, 0x1100FF, 0x80000000, UINT32_MAX};
    bool good = true;
    uint32_t c;
    size_t i, k;
    for (i = 0; i < p->words; i += 2)
        for (k = 0; k < 2; k++) {
            uint32_t edge = p->table[i + k], beside = k == 0 ? edge - 1 : edge + 1;
            good = good && p->ask(edge) && !p->ask(beside);
        }
    check(good, p->name, __LINE__);
    for (c = 0; c < 0x112000; c += c < 0x180 ? 1 : 97)
        good = good && p->ask(c) == has(p, c);
    check(good, p->name, __LINE__);
    for (i = 0; i < sizeof odd / sizeof *odd; i++)
        good = good && p->ask(odd[i]) == has(p, odd[i]);
    check(good, p->name, __LINE__);
}

static void members(void) {
    size_t i;
    for (i = 0; i < PROPERTIES; i++)
        read_property(properties + i);
    for (i = 0; i < PROPERTIES; i++)
        ask_property(properties + i);
}

static void say_answer(oq3_answer a) {
    say(a.number, "");
    say(a.also, " ");
}

static void say_records(oq3_answer a, size_t width) {
    size_t i;
    say_answer(a);
    for (i = 0; a.number == 0 && i < width * a.also; i++)
        say(list[i], i % width == 0 ? " " : ",");
}

/* the records tile the text: each starts behind all before it; and where one names an underscore there is one */
static bool tiles(oq3_answer a) {
    size_t at = 0, i;
    for (i = 0; a.number == 0 && i < a.also; i++) {
        uint32_t length = list[OQ3_WORDS * i + 1], misplaced = list[OQ3_WORDS * i + 4];
        if (length == 0 || list[OQ3_WORDS * i + 3] != at || length <= misplaced || (misplaced != 0 && text[at + misplaced] != '_'))
            return false;
        at += length;
    }
    return a.number != 0 || at == text_len;
}

static void say_room(oq3_answer a, size_t room) {
    size_t i;
    say_answer(a);
    for (i = 0; i < room; i++)
        say(list[i], " ");
    check(clean(room, 0), line, __LINE__);
}

static bool task(const char *name) {
    size_t n = strlen(name);
    if (memcmp(line, name, n) != 0 || line[n] != ' ')
        return false;
    rest = line + n;
    return true;
}

/* body PROFILE INDEX MODE HEX: the body of a quoted token, behind its quote and before the one that closes it, inside its text */
static void body(void) {
    uint32_t profile = (uint32_t)number(), index = (uint32_t)number(), mode = (uint32_t)number();
    size_t at, end;
    oq3_answer a;
    text_len = hex(text);
    a = oq3_tokenize(text, text_len, profile, list, OQ3_WORDS * text_len);
    if (a.number != 0) {
        say_answer(a);
        return;
    }
    at = list[OQ3_WORDS * index + 3];
    end = at + list[OQ3_WORDS * index + 2] - list[OQ3_WORDS * index] % 2;
    fresh();
    say_records(oq3_unescape_part(text, text_len, at + 1, end, mode, list, OQ3_ITEM_WORDS * (text_len + 1)), OQ3_ITEM_WORDS);
}

/* the n tokens that were given, as rows */
static void again(uint32_t profile, size_t n) {
    static uint32_t want[WORDS];
    memcpy(want, list, 4 * OQ3_WORDS * n);
    check(fills(tokenize_rows, OQ3_WORDS, text, text_len, profile, want, n), line, __LINE__);
}

/*
 * oqlist WORDS HEX: the words ask for a profile, and the answer is a listing. Whether it is a call that the library has: words that ask for
 * no profile, and more bytes than the program takes, are the program's to refuse.
 */
static bool listing(void) {
    uint32_t profile = oq3_default_profile();
    oq3_answer a;
    size_t i;
    if (rest[1] != '-')
        profile = (uint32_t)(rest[1] - '0');
    if (rest[1] == ' ' || rest[2] != ' ' || profile > 1)
        return false;
    rest += 2;
    text_len = hex(text);
    if (text_len > 2048)
        return false;
    a = oq3_tokenize(text, text_len, profile, list, OQ3_WORDS * text_len);
    if (a.number != OQ3_DONE) {
        say(a.number, "refused ");
        say(a.also, " ");
        return true;
    }
    say(a.also, "tokens ");
    for (i = 0; i < OQ3_WORDS * a.also; i++)
        say(list[i], i % OQ3_WORDS == 0 ? " / " : " ");
    return true;
}

/* the tasks that write; whether the line is one */
static bool writing(void) {
    uint32_t selector;
    size_t room;
    oq3_answer a;
    fresh();
    if (task("tok")) {
        selector = (uint32_t)number();
        text_len = hex(text);
        a = oq3_tokenize(text, text_len, selector, list, OQ3_WORDS * text_len);
        say_records(a, OQ3_WORDS);
        check(tiles(a), line, __LINE__);
        check(2 <= selector || all_parted(text, text_len, selector), line, __LINE__);
        if (a.number == OQ3_DONE)
            again(selector, (size_t)a.also);
    } else if (task("unescape")) {
        selector = (uint32_t)number();
        text_len = hex(text);
        say_records(oq3_unescape_literal(text, text_len, selector, list, OQ3_ITEM_WORDS * (text_len + 1)), OQ3_ITEM_WORDS);
    } else if (task("body")) {
        body();
    } else if (task("oqlist")) {
        return listing();
    } else if (task("tokroom") || task("itemroom")) {
        selector = (uint32_t)number();
        room = at_most(number(), WORDS);
        text_len = hex(text);
        say_room(task("tokroom") ? oq3_tokenize(text, text_len, selector, list, room) : oq3_unescape_literal(text, text_len, selector, list, room), room);
    } else if (task("rowroom")) {
        selector = (uint32_t)number();
        room = at_most(number(), WORDS / OQ3_WORDS);
        text_len = hex(text);
        say_room(oq3_tokenize_rows(text, text_len, selector, (oq3_token *)list, room), OQ3_WORDS * room);
    } else
        return false;
    return true;
}

static bool keying(void) {
    uint32_t profile;
    size_t room, n;
    oq3_answer a;
    fresh();
    if (task("key") || task("keyroom")) {
        bool given = task("keyroom");
        profile = (uint32_t)number();
        room = given ? at_most(number(), KEY) : KEY;
        text_len = hex(text);
        a = oq3_renewal_key(text, text_len, profile, key, room);
        say_answer(a);
        if (given)
            say_hex(" ", key, room);
        else if (a.number == 0)
            say_hex(" ", key, (size_t)a.also);
        check(clean(0, given ? room : a.number == 0 ? (size_t)a.also : 0), line, __LINE__);
    } else if (task("pair")) {
        static uint8_t second[KEY];
        oq3_answer b;
        oq3_comparison c;
        profile = (uint32_t)number();
        text_len = hex(text);
        n = hex(other);
        a = oq3_renewal_key(text, text_len, profile, key, KEY);
        b = oq3_renewal_key(other, n, profile, second, KEY);
        if (a.number != 0 || b.number != 0)
            say_answer(a.number != 0 ? a : b);
        else
            snprintf(said, sizeof said, a.also == b.also && memcmp(key, second, (size_t)a.also) == 0 ? "same" : "differ");
        /* compared without keys: by the model, and by what the line says */
        c = oq3_compare(text, text_len, other, n, profile);
        check(found(c, model(text, text_len, other, n, profile)), line, __LINE__);
        check(a.number != 0 ? c.verdict == OQ3_OLD_REFUSED : b.number != 0 ? c.verdict == OQ3_NEW_REFUSED : c.verdict == (strcmp(wanted, "same") == 0 ? OQ3_SAME : OQ3_DIFFERENT), line, __LINE__);
        check(all_placed(text, text_len) && all_placed(other, n), line, __LINE__);
    } else if (task("compare")) {
        oq3_comparison c;
        profile = (uint32_t)number();
        text_len = hex(text);
        n = hex(other);
        c = oq3_compare(text, text_len, other, n, profile);
        say(c.verdict, ""), say(c.refusal.number, " "), say(c.refusal.also, " "), say(c.agreed, " ");
        say(c.in_old.kind, " "), say(c.in_old.start, ","), say(c.in_old.length, ",");
        say(c.in_new.kind, " "), say(c.in_new.start, ","), say(c.in_new.length, ",");
    } else
        return false;
    return true;
}

/* the number behind a colon */
static uint64_t field(void) {
    rest += *rest == ':';
    return number();
}

/* the text question of a history, by both calls; with the lengths of the last accepted call, or with those that stand there */
static void say_span(oq3_lexer x, size_t chunk_len, size_t carry_len) {
    size_t start = (size_t)field(), length = (size_t)field();
    oq3_span s;
    if (*rest == ':') {
        chunk_len = (size_t)field();
        carry_len = (size_t)field();
    }
    s = oq3_feed_text(x, chunk_len, carry_len, start, length);
    say(s.number, "");
    check(is(oq3_feed_text_number(x, text, chunk_len, carries.at, carry_len, start, length), s.number, 0), line, __LINE__);
    used += (size_t)snprintf(said + used, sizeof said - used, "%s", s.which == OQ3_IN_CHUNK ? " chunk" : s.which == OQ3_IN_CARRY ? " carry" : " empty");
    if (s.which != OQ3_NOWHERE)
        say(s.at, " "), say(s.length, " ");
}

/* f:HEX:RECORDS:CARRY or e:RECORDS:CARRY */
static oq3_fed say_call(oq3_lexer x, bool ends, uint8_t *buffer, size_t *carry_len) {
    size_t room, i;
    oq3_fed f;
    text_len = ends ? 0 : hex(text);
    room = at_most(field(), WORDS / OQ3_WORDS);
    *carry_len = at_most(field(), TEXT);
    fresh();
    memcpy(lend(&carries, *carry_len, false), buffer, *carry_len);
    f = ends ? oq3_finish(x, carries.at, *carry_len, list, OQ3_WORDS * room) : oq3_feed(x, text, text_len, carries.at, *carry_len, list, OQ3_WORDS * room);
    memcpy(buffer, carries.at, *carry_len);
    say_answer(f.answer);
    for (i = 0; f.answer.number == OQ3_DONE && i < OQ3_WORDS * f.answer.also; i++)
        say(list[i], i % OQ3_WORDS == 0 ? " " : ",");
    say_hex(" c=", buffer, *carry_len);
    check(clean(f.answer.number == OQ3_DONE ? OQ3_WORDS * (size_t)f.answer.also : 0, 0) && kept_in(&carries), line, __LINE__);
    return f;
}

/* parts PROFILE STEPS: a history of one lexer, whose steps stand in crates/answers/src/histories.rt */
static bool history(void) {
    static uint8_t buffer[TEXT];
    size_t chunk_len = 0, carry_len = 0, lent, n;
    oq3_lexer x;
    const char *joint = "";
    if (!task("parts"))
        return false;
    x = oq3_start((uint32_t)number());
    memset(buffer, 0xA5, sizeof buffer);
    for (; *rest == ' '; joint = " | ") {
        char step = rest[1];
        used += (size_t)snprintf(said + used, sizeof said - used, "%s", joint);
        rest += 3;
        if (step == 'f' || step == 'e') {
            oq3_fed f = say_call(x, step == 'e', buffer, &lent);
            x = f.lexer;
            if (f.answer.number == OQ3_DONE)
                chunk_len = text_len, carry_len = lent;
        } else if (step == 'q')
            say_span(x, chunk_len, carry_len);
        else if (step == 'a') {
            lent = at_most(field(), TEXT);
            rest++;
            n = hex(other);
            memcpy(buffer + lent, other, n < TEXT - lent ? n : TEXT - lent);
            used += (size_t)snprintf(said + used, sizeof said - used, "altered");
        } else
            return false;
    }
    return true;
}

static bool reading(void) {
    if (task("char"))
        say_answer(oq3_unescape_char(text, hex(text)));
    else if (task("byte"))
        say_answer(oq3_unescape_byte(text, hex(text)));
    else if (task("ident"))
        say_answer(oq3_is_ident(text, hex(text)));
    else if (task("lowbyte"))
        say(oq3_byte_from_char((uint32_t)number()), "");
    else if (task("fatal"))
        say_answer(oq3_is_fatal((uint32_t)number()));
    else if (task("mode")) {
        uint32_t mode = (uint32_t)number();
        say_answer(oq3_in_double_quotes(mode));
        if (oq3_in_double_quotes(mode).number != 0) {
            check(no_mode(mode), line, __LINE__);
            return true;
        }
        say(oq3_characters_should_be_ascii(mode).also, " ");
        say(oq3_is_unicode_escape_disallowed(mode).also, " ");
        say(oq3_prefix_noraw(mode).also, " ");
        check(mode_is(mode, modes[mode]), line, __LINE__);
    } else if (task("cp")) {
        uint32_t c = (uint32_t)number();
        say(oq3_is_whitespace(c), "");
        say(oq3_is_id_start(c), " ");
        say(oq3_is_id_continue(c), " ");
        say(oq3_is_emoji(c), " ");
        say(oq3_is_white_space(c), " ");
        check(oq3_is_xid_start(c) == has(properties + XID_START, c) && oq3_is_xid_continue(c) == has(properties + XID_CONTINUE, c), line, __LINE__);
    } else if (task("utf8")) {
        size_t n = hex(text), at = 0, count = 0;
        oq3_answer a = oq3_check_text(text, n);
        for (; a.number == 0 && at < n; count++)
            at += oq3_decode(text, n, at).wide;
        check(oq3_valid_up_to(text, n) == (a.number == 0 ? n : a.also), line, __LINE__);
        check(oq3_clean_up_to(text, n) == clean_bytes(text, n), line, __LINE__);
        check(all_read(text, n) && all_placed(text, n), line, __LINE__);
        say(a.number, "");
        say(a.number == 0 ? count : a.also, " ");
    } else
        return false;
    return true;
}

static void vectors(void) {
    unsigned long lines = 0, left = 0;
    while (read_line()) {
        char *want = line;
        while (*want != 0 && memcmp(want, " = ", 3) != 0)
            want++;
        used = 0;
        said[0] = 0;
        if (*want == 0 || strcmp(want, " = unknown") == 0 || strcmp(want, " = unreadable") == 0) {
            left++;
            continue;
        }
        *want = 0;
        want += 3;
        wanted = want;
        if (!writing() && !keying() && !history() && !reading()) {
            left++;
            continue;
        }
        lines++;
        check(strcmp(said, want) == 0, line, __LINE__);
    }
    printf("test: %lu lines of the vectors answered, %lu left out\n", lines, left);
}

int main(void) {
    lists();
    refusals();
    marks();
    nothing();
    too_long();
    keys();
    comparisons();
    singles();
    in_parts();
    stacks();
    members();
    vectors();
    printf("%lu passed, %lu failed\n", passed, failed);
    return failed != 0 || passed == 0;
}
