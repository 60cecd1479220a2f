/*
 * oq3.h: OpenQASM 3 text cut into tokens, whole or in parts, its renewal key, two texts compared, and the bodies of literals.
 *
 * The functions stand in the archive liboq3.a, which `tools/install PREFIX` puts below PREFIX, with this header and a file for pkg-config:
 *
 *     cc -std=c99 program.c $(pkg-config --cflags --libs oq3)
 *
 * The archive is for x86-64 Linux, is compiled as position-independent code, asks for no processor newer than the first x86-64, and needs memcpy
 * and memset, which a C compiler may call in any program, and nothing else.
 *
 * This header is C99, and C++ too.
 *
 * What is asked of a caller: that each pointer, with its count, is memory that the caller may read (`const`) or read and write.
 *  - A count is of elements: bytes behind a `uint8_t *`, words behind a `uint32_t *`, records behind an `oq3_token *`.
 *  - A count of 0 may go with any pointer, NULL too: nothing is read or written through it. With any other count a pointer that is
 *    NULL is an error of the caller's, and nothing notices it.
 *  - A `uint32_t *` or `oq3_token *` is aligned to four bytes, as C asks of it anyhow. Bytes may stand anywhere. They need no NUL behind them,
 *    and a NUL among them is a character as any other.
 *  - What is written must not overlap what is read: a list, a row or a key shares no byte with a text of the same call. What is only read may
 *    overlap: the two texts of a comparison, texts of calls that run side by side.
 *  - What is lent to be written is never read: it may hold anything before the call. A carry alone is read too, and may hold anything all the same
 *    ("A text that comes in parts", below).
 * Nothing else is asked: every text, number and count has an answer, and it is proved that there is one only, refusals included.
 *
 * No function keeps anything between calls, asks for memory, calls another library but for these two, or fails in another way than by its answer. So
 * calls from several threads go side by side, as long as no thread writes what another's call reads or writes. How much
 * stack a call takes does not depend on how long a text is ("Stack", below).
 */
#ifndef OQ3_H
#define OQ3_H

#include <stdbool.h>
#include <stddef.h>
#include <stdint.h>

#ifdef __cplusplus
extern "C" {
#endif

/* ---- What comes back ---------------------------------------------------------------------------------------------------------- */

/*
 * `number` says how the call went, and `also` what comes with it. The checks go in the order in which their numbers stand here, of each function
 * those that it names; the first that applies is given, and it is given only then. A refusal, which is any number but 0, leaves the lent memory as
 * it was.
 */
typedef struct oq3_answer {
    uint32_t number;
    uint64_t also;
} oq3_answer;

enum {
    OQ3_DONE = 0,             /* done; also: how many records or key bytes were written, or the function's own value */
    OQ3_NOT_OPEN = 5,         /* for oq3_feed and oq3_finish: the lexer has ended, or is none; also: 0 */
    OQ3_UNKNOWN_SELECTOR = 1, /* no such profile, mode, error or span; also: 0 */
    OQ3_TOO_LONG = 2,         /* the text has more than OQ3_LONGEST bytes; also: 0 */
    OQ3_NOT_UTF8 = 3,         /* the text is not UTF-8; also: the length of its longest well-formed beginning, in bytes */
    /* for what lists tokens, makes keys or compares; such characters are not seen, and set or end the direction of what is */
    OQ3_DIRECTION_MARK = 7,   /* the text holds one of U+202A to U+202E or U+2066 to U+2069; also: the byte place of the first */
    OQ3_ROOM_TOO_SMALL = 4,   /* there is too little room; also: how many records or key bytes are needed */
    OQ3_NOT_KEPT = 6          /* for the text of a span of a text that comes in parts: some byte of it is not kept; also: 0 */
};

/* The most bytes that a text may have. */
#define OQ3_LONGEST UINT32_C(4294967295)

/*
 * Profiles: how the Rust crate oq3_lexer 0.7.0 cuts when it is built for release, and when it is built with debug assertions. They differ in
 * one thing. With debug assertions a word that begins with `pragma` begins a Pragma, to the end of its line, as `#pragma` does in both: the
 * language's own documents write pragmas without the pound sign. In release it is a name like others. So the lists and the keys of a text
 * with such a word are others under the other profile, and a caller that keeps some has to name the profile that they were made under.
 */
enum {
    OQ3_PROFILE_RELEASE = 0,
    OQ3_PROFILE_DEBUG = 1,
    OQ3_DEFAULT_PROFILE = OQ3_PROFILE_DEBUG /* for a caller with no wish of its own */
};

/* ---- Tokens ------------------------------------------------------------------------------------------------------------------- */

/* The kinds. Numbers that are missing here are never given. */
enum {
    OQ3_KIND_LINE_COMMENT = 1,
    OQ3_KIND_BLOCK_COMMENT = 2,
    OQ3_KIND_BLOCK_COMMENT_UNCLOSED = 3,
    OQ3_KIND_WHITESPACE = 4,
    OQ3_KIND_IDENT = 5, /* keywords too */
    OQ3_KIND_HARDWARE_IDENT = 6,
    OQ3_KIND_INVALID_IDENT = 7,
    OQ3_KIND_PRAGMA = 8,
    OQ3_KIND_ANNOTATION = 9,
    OQ3_KIND_SEMI = 10,
    OQ3_KIND_COMMA = 11,
    OQ3_KIND_DOT = 12,
    OQ3_KIND_OPEN_PAREN = 13,
    OQ3_KIND_CLOSE_PAREN = 14,
    OQ3_KIND_OPEN_BRACE = 15,
    OQ3_KIND_CLOSE_BRACE = 16,
    OQ3_KIND_OPEN_BRACKET = 17,
    OQ3_KIND_CLOSE_BRACKET = 18,
    OQ3_KIND_AT = 19,
    OQ3_KIND_TILDE = 21,
    OQ3_KIND_QUESTION = 22,
    OQ3_KIND_COLON = 23,
    OQ3_KIND_DOLLAR = 24, /* with the underscores behind it: one byte or more */
    OQ3_KIND_EQ = 25,
    OQ3_KIND_BANG = 26,
    OQ3_KIND_LT = 27,
    OQ3_KIND_GT = 28,
    OQ3_KIND_MINUS = 29,
    OQ3_KIND_AND = 30,
    OQ3_KIND_OR = 31,
    OQ3_KIND_PLUS = 32,
    OQ3_KIND_STAR = 33,
    OQ3_KIND_SLASH = 34,
    OQ3_KIND_CARET = 35,
    OQ3_KIND_PERCENT = 36,
    OQ3_KIND_UNKNOWN = 37,
    /* The literals, from here on. EMPTY: a prefix with no digit behind it; an exponent with none. */
    OQ3_KIND_INT_BINARY = 40,
    OQ3_KIND_INT_BINARY_EMPTY = 41,
    OQ3_KIND_INT_OCTAL = 42,
    OQ3_KIND_INT_OCTAL_EMPTY = 43,
    OQ3_KIND_INT_DECIMAL = 44,
    OQ3_KIND_INT_HEXADECIMAL = 46,
    OQ3_KIND_INT_HEXADECIMAL_EMPTY = 47,
    OQ3_KIND_FLOAT_BINARY = 48,
    OQ3_KIND_FLOAT_BINARY_EMPTY = 49,
    OQ3_KIND_FLOAT_OCTAL = 50,
    OQ3_KIND_FLOAT_OCTAL_EMPTY = 51,
    OQ3_KIND_FLOAT_DECIMAL = 52,
    OQ3_KIND_FLOAT_DECIMAL_EMPTY = 53,
    OQ3_KIND_FLOAT_HEXADECIMAL = 54,
    OQ3_KIND_FLOAT_HEXADECIMAL_EMPTY = 55,
    OQ3_KIND_STR_UNCLOSED = 56,
    OQ3_KIND_STR = 57,
    OQ3_KIND_BIT_STR_UNCLOSED = 58,
    OQ3_KIND_BIT_STR = 59,
    /* with two underscores side by side */
    OQ3_KIND_BIT_STR_TWICE_UNCLOSED = 60,
    OQ3_KIND_BIT_STR_TWICE = 61
};

/*
 * A record of the list of tokens. The tokens tile the text: the first starts at 0, each next one where the one before it ends, the last ends
 * where the text does, and each has at least one byte.
 *
 * An underscore is misplaced that has not a digit on both sides in its run of digits. A hardware identifier and OQ3_KIND_DOLLAR have one run,
 * behind the dollar sign. A number has up to three: from its first digit on, or behind its 0b, 0o or 0x; behind its point; and in its exponent.
 * Digits are 0 to 9, in the run behind 0x also a to f and A to F. What stands in a suffix is in no run. Other tokens have none.
 */
typedef struct oq3_token {
    uint32_t kind;
    uint32_t length;    /* in bytes */
    uint32_t suffix;    /* of a literal: where its suffix starts, from the token's first byte, `length` where it has none; else 0 */
    uint32_t start;     /* where it starts in the text, in bytes: the lengths of all before it, added up */
    uint32_t misplaced; /* the place in the token, in bytes, of its first misplaced underscore; 0 for none */
} oq3_token;

/* How many words a record of a token has, and one of an item of a body. */
enum { OQ3_WORDS = 5, OQ3_ITEM_WORDS = 3 };

/*
 * The tokens of a text: OQ3_WORDS words for each, in order, from list[0] on. `words` is the room. Refuses with 1, 2, 3, 7 and 4.
 *
 * With 0 exactly OQ3_WORDS * also words are written, and those behind them are as they were. A trailing part of a record, where `words` is no
 * multiple of OQ3_WORDS, is never written. `also` is in records, in the refusal too: room for `also` records is OQ3_WORDS * also words.
 *
 * There are no more tokens than bytes: OQ3_WORDS * text_len words are always enough, and where they are there nothing is counted first, which
 * is about twice as fast. With less room the text is cut twice, since a refusal must leave the list as it was.
 *
 * An array of oq3_token has the same layout as the list: (uint32_t *)row and OQ3_WORDS times its records may be lent, or the row itself to the
 * next one.
 */
oq3_answer oq3_tokenize(const uint8_t *text, size_t text_len, uint32_t profile, uint32_t *list, size_t words);

/*
 * The same with an array of structs: `records` is the room of the row. The answer is that of oq3_tokenize with OQ3_WORDS * records words, and with 0
 * the first `also` records are the tokens; those behind them are as they were, and after a refusal all are.
 */
oq3_answer oq3_tokenize_rows(const uint8_t *text, size_t text_len, uint32_t profile, oq3_token *row, size_t records);

/* Tests on a character, by its number. No for a number that is no Unicode scalar value. */
bool oq3_is_whitespace(uint32_t c);
bool oq3_is_id_start(uint32_t c);
bool oq3_is_id_continue(uint32_t c);

/* Whether a text is one identifier: also is 1 for yes and 0 for no, as for the empty text. Refuses with 2 and 3. */
oq3_answer oq3_is_ident(const uint8_t *text, size_t text_len);

/* ---- A text that comes in parts ----------------------------------------------------------------------------------------------- */

/*
 * A lexer between two calls. It is a value, which a call takes and gives the next of: nothing of it lies elsewhere, and it may be copied, kept, and
 * gone back to. Its fields are the library's own, not to be read or changed. Any bytes may be handed in as one, and have an answer: what can be no
 * lexer is refused with 5.
 */
typedef struct oq3_lexer {
    uint32_t own1[16];
    uint8_t own2[4];
    uint32_t own3[5];
    size_t own4;
    uint32_t own5[2];
} oq3_lexer;

/* The answer of a call, and the lexer for the next one. */
typedef struct oq3_fed {
    oq3_answer answer;
    oq3_lexer lexer;
} oq3_fed;

/* A lexer to which nothing has been fed. A profile that there is not is told by each call behind it. */
oq3_lexer oq3_start(uint32_t profile);

/*
 * One chunk more of the text, cut anywhere, inside a character too, or empty; and the end of the text. Tokens are handed out as records, as
 * oq3_tokenize writes them, with places in the whole text: by oq3_feed those that have two whole characters or more behind them in what has been fed,
 * and by oq3_finish the rest. Those of all calls, joined, are those of the whole text. `also` is how many this call gave. Room for chunk_len + 5
 * records is always enough, 5 at the finish, and where it is there nothing is counted first.
 *
 * The carry is for a caller that asks for the text of tokens (oq3_feed_text, below); one that does not lends none. After an accepted call it holds,
 * packed from its first byte on, the bytes of this call's tokens that began in earlier chunks, then those not handed out yet: up to the first that has
 * no room, was lost before, or was kept past the end of the carry that is lent now. From that byte on they are lost for good, and the rest of the carry is as it was. Kept
 * bytes are read from the carry as it is lent, so that it has to be the same memory from call to call, or a copy of it. Records come regardless of it.
 *
 * Both refuse with 5, before all others, where the lexer has ended: by oq3_finish, or by a refusal with 2, 3 or 7; then with 1, 2, 3 or 7, and 4. The limit
 * of 2 counts all parts. 3 is given as soon as nothing could follow that makes the bytes well-formed, and at the finish for a character that is not
 * finished; its place, in the whole text, is where that character starts. Of 3 and 7 the one that stands first in the text is given. A call refused with 4 is
 * not taken, and the same one with more room goes on. After a refusal the list and the carry are as they were, and with 5, 1 and 4 the lexer is.
 */
oq3_fed oq3_feed(oq3_lexer lexer, const uint8_t *chunk, size_t chunk_len, uint8_t *carry, size_t carry_len, uint32_t *list, size_t words);
oq3_fed oq3_finish(oq3_lexer lexer, uint8_t *carry, size_t carry_len, uint32_t *list, size_t words);

enum {
    OQ3_NOWHERE = 0,
    OQ3_IN_CHUNK = 1,
    OQ3_IN_CARRY = 2
};

/* Where a text stands: in which of the two slices, the place there of its first byte, and how long it is; nowhere, 0 and 0 where the number is not 0. */
typedef struct oq3_span {
    uint32_t number;
    uint32_t which;
    size_t at;
    size_t length;
} oq3_span;

/*
 * Where the text of a span stands, which starts at `start` in the whole text and has `length` bytes. The lexer is the one behind the last accepted
 * call, or behind a refusal since, and the lengths are those of the chunk and the carry of that call; the finish has an empty chunk. Refuses with 1 for
 * a span that is empty or not inside that call's tokens, and for a chunk or a carry of another length; then with 6, OQ3_NOT_KEPT, for a span that
 * starts before the chunk and of which some byte is not kept in the carry for these tokens.
 */
oq3_span oq3_feed_text(oq3_lexer lexer, size_t chunk_len, size_t carry_len, size_t start, size_t length);

/* The number alone, for a caller with the slices at hand, which are not read. */
oq3_answer oq3_feed_text_number(oq3_lexer lexer, const uint8_t *chunk, size_t chunk_len, const uint8_t *carry, size_t carry_len, size_t start, size_t length);

/* ---- The renewal key ---------------------------------------------------------------------------------------------------------- */

/*
 * The key of a text: two accepted texts have the same bytes as key, under one profile, exactly when their tokens other than white space,
 * line comments and closed block comments are the same, one by one, in kind, length, suffix start and bytes. Refuses with 1, 2, 3, 7 and 4.
 *
 * With 0 exactly `also` bytes are written, from key[0] on, and those behind them are as they were. A key has at most 11 bytes for each
 * byte of text; where there is room for as many nothing is measured first, which is about twice as fast.
 */
oq3_answer oq3_renewal_key(const uint8_t *text, size_t text_len, uint32_t profile, uint8_t *key, size_t key_len);

/* ---- Two texts compared ------------------------------------------------------------------------------------------------------- */

enum {
    OQ3_SAME = 0,
    OQ3_DIFFERENT = 1,
    OQ3_OLD_REFUSED = 2,
    OQ3_NEW_REFUSED = 3 /* the old text is accepted */
};

/* A token of a text: its kind, its first byte's place, its length in bytes. At the end of a text: 0, the text's length, 0. */
typedef struct oq3_sight {
    uint32_t kind;
    size_t start;
    size_t length;
} oq3_sight;

typedef struct oq3_comparison {
    uint32_t verdict;
    oq3_answer refusal; /* the answer of oq3_check_cut to the text that was refused; 0 and 0 where none was */
    size_t agreed;      /* how many counted tokens are the same in both texts, one by one, from the first on */
    oq3_sight in_old;   /* the counted token behind those, or the end, in each text */
    oq3_sight in_new;
} oq3_comparison;

/*
 * Whether two texts have the same counted tokens, which are all but white space, line comments and closed block comments, in kind, length,
 * suffix start and bytes; and if not, where they part. Of two accepted texts it is OQ3_SAME exactly where their keys are the same bytes, but no key is made. After a refusal
 * agreed and both sights are 0.
 */
oq3_comparison oq3_compare(const uint8_t *old_text, size_t old_len, const uint8_t *new_text, size_t new_len, uint32_t profile);

/* A line and a column, both from 1. */
typedef struct oq3_place {
    size_t line;
    size_t column;
} oq3_place;

/*
 * The line and the column of the byte `at`, for a reader: a line ends behind each LF, and a column is a character, with a tab and a CR one as any
 * other. Past the end it is the end's. Any bytes will do: each is a column but those from 0x80 to 0xBF, which go on with a character.
 */
oq3_place oq3_place_of(const uint8_t *text, size_t text_len, size_t at);

/* ---- The bodies of literals --------------------------------------------------------------------------------------------------- */

/* What the body, which has no quotes, is the body of. */
enum {
    OQ3_MODE_CHAR = 0,
    OQ3_MODE_STR = 1,
    OQ3_MODE_BYTE = 2,
    OQ3_MODE_BIT_STR = 3,
    OQ3_MODE_BYTE_STR = 4,
    OQ3_MODE_RAW_STR = 5,
    OQ3_MODE_RAW_BYTE_STR = 6
};

/* The errors of a body, and two warnings. */
enum {
    OQ3_ERROR_ZERO_CHARS = 1,
    OQ3_ERROR_MORE_THAN_ONE_CHAR = 2,
    OQ3_ERROR_LONE_SLASH = 3,
    OQ3_ERROR_INVALID_ESCAPE = 4,
    OQ3_ERROR_BARE_CARRIAGE_RETURN = 5,
    OQ3_ERROR_BARE_CARRIAGE_RETURN_IN_RAW_STRING = 6,
    OQ3_ERROR_ESCAPE_ONLY_CHAR = 7,
    OQ3_ERROR_TOO_SHORT_HEX_ESCAPE = 8,
    OQ3_ERROR_INVALID_CHAR_IN_HEX_ESCAPE = 9,
    OQ3_ERROR_OUT_OF_RANGE_HEX_ESCAPE = 10, /* known to oq3_is_fatal, given by nothing */
    OQ3_ERROR_NO_BRACE_IN_UNICODE_ESCAPE = 11,
    OQ3_ERROR_INVALID_CHAR_IN_UNICODE_ESCAPE = 12,
    OQ3_ERROR_EMPTY_UNICODE_ESCAPE = 13,
    OQ3_ERROR_UNCLOSED_UNICODE_ESCAPE = 14,
    OQ3_ERROR_LEADING_UNDERSCORE_UNICODE_ESCAPE = 15,
    OQ3_ERROR_OVERLONG_UNICODE_ESCAPE = 16,
    OQ3_ERROR_LONE_SURROGATE_UNICODE_ESCAPE = 17,
    OQ3_ERROR_OUT_OF_RANGE_UNICODE_ESCAPE = 18,
    OQ3_ERROR_UNICODE_ESCAPE_IN_BYTE = 19,
    OQ3_ERROR_NON_ASCII_CHAR_IN_BYTE = 20,
    OQ3_WARNING_UNSKIPPED_WHITESPACE = 21,
    OQ3_WARNING_MULTIPLE_SKIPPED_LINES = 22
};

/* Where the outcomes begin that are no characters: an outcome is a code point, or this plus the number of an error or warning. */
#define OQ3_NO_CHAR UINT32_C(1114112)

/* A record of the list of items. Places count bytes from the body's first. */
typedef struct oq3_item {
    uint32_t start;
    uint32_t end;
    uint32_t outcome;
} oq3_item;

/*
 * The items of a body: OQ3_ITEM_WORDS words for each, in order. `words` is the room. Refuses with 1, 2, 3 and 4.
 *
 * What is written, and what `also` counts, is as with oq3_tokenize; an array of oq3_item may be lent. There are no more items than bytes, but for the
 * one item of an empty body in OQ3_MODE_CHAR or OQ3_MODE_BYTE: OQ3_ITEM_WORDS * (body_len + 1) words are always enough, and where they
 * are there nothing is counted first.
 */
oq3_answer oq3_unescape_literal(const uint8_t *body, size_t body_len, uint32_t mode, uint32_t *list, size_t words);

/*
 * The same for a body that stands in a text, from the byte `from` up to, and without, the byte `to`. `to` is first brought down to text_len, and
 * `from` to that. The checks are of the body alone. Spans count from the body's first byte.
 */
oq3_answer oq3_unescape_part(const uint8_t *text, size_t text_len, size_t from, size_t to, uint32_t mode, uint32_t *list, size_t words);

/* The one character of a body of a character or byte literal: also is the outcome, as an item has it. Refuse with 2 and 3. */
oq3_answer oq3_unescape_char(const uint8_t *text, size_t text_len);
oq3_answer oq3_unescape_byte(const uint8_t *text, size_t text_len);

/* The low eight bits. */
uint8_t oq3_byte_from_char(uint32_t c);

/* Tests on a mode: also is 1 for yes and 0 for no. Refuse with 1. */
oq3_answer oq3_in_double_quotes(uint32_t mode);
oq3_answer oq3_characters_should_be_ascii(uint32_t mode);
oq3_answer oq3_is_unicode_escape_disallowed(uint32_t mode);

/* also is the length of the literal's prefix, without the `r` of raw ones: 1 for the three modes of bytes, else 0. Refuses with 1. */
oq3_answer oq3_prefix_noraw(uint32_t mode);

/* OQ3_MODE_RAW_STR and OQ3_MODE_RAW_BYTE_STR, whose bodies have no escapes. No for any other number, be it a mode or not. */
bool oq3_is_raw(uint32_t mode);

/* Whether the error of this number, 1 to 22, is one: also is 0 for the two warnings and else 1. Refuses with 1. */
oq3_answer oq3_is_fatal(uint32_t error);

/* ---- Texts and characters ----------------------------------------------------------------------------------------------------- */

/* The profile for a caller with no wish of its own, as the archive has it: OQ3_DEFAULT_PROFILE of the header that it was made with. */
uint32_t oq3_default_profile(void);

/*
 * The checks of a text, by themselves. oq3_check_text is what oq3_is_ident and the calls on bodies ask: 2 and 3. oq3_check_cut is what those ask that
 * list tokens, make keys or compare: 1 for the profile, 2, 3 and 7. With 0 also is 0.
 */
oq3_answer oq3_check_text(const uint8_t *text, size_t text_len);
oq3_answer oq3_check_cut(const uint8_t *text, size_t text_len, uint32_t profile);

/* The length of a text's longest well-formed beginning, in bytes: text_len for UTF-8. */
size_t oq3_valid_up_to(const uint8_t *text, size_t text_len);

/* How many bytes of a text stand before its first fault, a byte that is not UTF-8 or a character of OQ3_DIRECTION_MARK: text_len where there is none. */
size_t oq3_clean_up_to(const uint8_t *text, size_t text_len);

/* A character, and how many bytes it takes. */
typedef struct oq3_char {
    uint32_t code;
    size_t wide;
} oq3_char;

/*
 * The character at a place: 0 and 0 at or past the end. A byte that begins no well-formed sequence is OQ3_NO_CHAR more than itself, one byte
 * wide.
 */
oq3_char oq3_decode(const uint8_t *text, size_t text_len, size_t at);

/* ---- Properties of a character ------------------------------------------------------------------------------------------------ */

/*
 * Whether a character has the property in the Unicode Character Database 15.0.0. No for a number that is no Unicode scalar value.
 */
bool oq3_is_xid_start(uint32_t c);
bool oq3_is_xid_continue(uint32_t c);
bool oq3_is_emoji(uint32_t c);       /* digits, # and * too, as the database has it */
bool oq3_is_white_space(uint32_t c); /* White_Space: more than oq3_is_whitespace, as 0xA0, and less, as 0x200E */

/* ---- Stack -------------------------------------------------------------------------------------------------------------------- */

/*
 * A call takes less stack than this many bytes, memcpy and memset and their binding at a first call included: measured, not proved, with more than a
 * quarter to spare.
 */
enum {
    OQ3_STACK_TOKENIZE_ROWS = 40 * 1024, /* oq3_tokenize_rows, which has oq3_tokenize count where the row may be short */
    OQ3_STACK_CUT = 24 * 1024,           /* oq3_tokenize, oq3_feed, oq3_finish, oq3_renewal_key, oq3_compare */
    OQ3_STACK = 16 * 1024                /* each other function */
};

#ifdef __cplusplus
}
#endif

#endif
