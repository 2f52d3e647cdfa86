/* Phone numbers, parsed and formatted as crates/phone_c proves it. Written by hand. Of these calls
 * bindings/declarations.py makes Rust's and Python's, and compares all of it with crates/phone_c.
 *
 * What a caller owes, and nothing checks:
 *   - A handle begins as PHONE_CLOSED, and only these calls write it. It is not copied: two copies
 *     would own one thing; phone_share makes a second. So with a table of prefixes.
 *   - One call at a time on a handle, which each call writes: those that ask leave it as it was. It is of
 *     no thread: one thread opens it, others use it in turn, any closes it, with a lock or a join between
 *     two calls. Threads that parse at once have handles of their own: those made by phone_share share
 *     one database, of all regions some 6 MB, and calls on different handles may run at once, any number of
 *     them. No call is made from a signal handler, nor in a forked child on a handle that another
 *     thread's call was on at the fork.
 *   - A length is not past its buffer. A buffer that is written is memory that may be read: what was
 *     allocated is set to something first. What one call is given does not overlap.
 *   - `phone_text(p, n)` makes of a null text of length 0 one that may be passed; no pointer that is
 *     passed is null, also where its length is 0.
 *   - What is linked with it defines rattle_alloc, rattle_realloc and rattle_dealloc: the kit's
 *     c/liblibc_c.a does, by malloc, realloc and free.
 */
#ifndef PHONE_H
#define PHONE_H
#include <stddef.h>
#include <stdint.h>
#ifdef __cplusplus
extern "C" {
#endif

/* A handle, or nothing open where `at` is null. `at` is neither read nor written by the caller.
 * PHONE_CLOSED begins one: phone_handle world = PHONE_CLOSED; phone_closed() is the same as a value. */
typedef struct { void *at; } phone_handle;
#define PHONE_CLOSED {0}
static inline phone_handle phone_closed(void) {
    phone_handle handle = PHONE_CLOSED;
    return handle;
}

/* The same of a table of prefixes. */
typedef struct { void *at; } phone_prefixes;
static inline phone_prefixes phone_prefixes_closed(void) {
    phone_prefixes prefixes = PHONE_CLOSED;
    return prefixes;
}

/* The same of an atlas: the tables of texts that a locale asks. */
typedef struct { void *at; } phone_atlas;
static inline phone_atlas phone_atlas_closed(void) {
    phone_atlas atlas = PHONE_CLOSED;
    return atlas;
}

/* What a call answers: each status has a number of its own, and words (phone_status_words). */
typedef uint32_t phone_status;
enum {
    PHONE_OK = 0,
    PHONE_NO_NUMBER = 1,             /* phone_parse: it is no phone number */
    PHONE_INVALID_COUNTRY_CODE = 2,  /* phone_parse: no calling code is known for it */
    PHONE_TOO_SHORT_AFTER_IDD = 3,   /* phone_parse: too few digits behind an international prefix */
    PHONE_TOO_SHORT_NSN = 4,         /* phone_parse: too few digits for a national number */
    PHONE_TOO_LONG = 5,              /* phone_parse: too many */
    PHONE_MALFORMED_INTEGER = 6,     /* phone_parse: digits that are no number, as zeros alone */
    PHONE_MEMORY = 7,                /* there was no memory; the handle may be used as before */
    PHONE_MISSING_VALUE = 8,         /* phone_open: a record lacks a value that it must have */
    PHONE_UNHANDLED_ELEMENT = 9,     /* phone_open: a record has a key that it may not have */
    PHONE_MALFORMED_JSON = 10,       /* phone_open: the text is no JSON */
    PHONE_WRONG_KIND = 11,           /* phone_open: a value of the wrong kind */
    PHONE_MALFORMED_REGEX = 12,      /* phone_open: a text that is no pattern */
    PHONE_IS_CLOSED = 16,            /* nothing is open behind the handle */
    PHONE_TOO_SMALL = 17,            /* the buffer is too short; `wrote` is the length that is needed */
    PHONE_NOT_UTF8 = 18,             /* the text is not UTF-8 */
    PHONE_NO_REGION = 19,            /* the default region is no region's id */
    PHONE_UNKNOWN_CODE = 20,         /* no territory of the database has the number's calling code */
    PHONE_BAD_NUMBER = 21,           /* the plain numbers and bytes are no phone number */
    PHONE_NO_MODE = 22,              /* the mode is none of the four, the form none of the three */
    PHONE_NO_RULES = 24,             /* phone_open: the rules are neither of the two */
    PHONE_LINE_EMPTY = 25,           /* phone_prefixes_open: the line is empty */
    PHONE_LINE_NO_TAB = 26,          /* phone_prefixes_open, phone_atlas_open: no tab stands in the line */
    PHONE_LINE_NO_PREFIX = 27,       /* phone_prefixes_open: before the tab stand not 1 to 15 digits */
    PHONE_LINE_NOT_UTF8 = 28,        /* phone_prefixes_open: what stands after the tab is not UTF-8 */
    PHONE_LINE_TWICE = 29,           /* phone_prefixes_open: an earlier line has the prefix */
    PHONE_NO_PREFIX = 30,            /* phone_prefixes_longest: no prefix begins the digits */
    PHONE_NO_KIND = 31,              /* the kind is none of the 17 */
    PHONE_NO_EXAMPLE = 32,           /* the database has no example of the region and kind */
    PHONE_NO_WORD = 33,              /* no value of the set has the number; no status, no cost has it */
    PHONE_NO_TERRITORY = 34,         /* the database has no territory of the region */
    PHONE_NO_LENIENCY = 35,          /* the call has no such leniency */
    PHONE_NO_COLUMN = 36,            /* phone_columns: no column has one of the numbers */
    PHONE_BAD_LAYOUT = 37            /* phone_columns: texts or default regions are no column */
};

/* By whose rules a text is parsed and a number formatted and described: those of libphonenumber, or those of
 * the Rust crate phonenumber 0.3.10. They are chosen where a database is opened, and are the handle's. */
enum { PHONE_LIBRARY = 0, PHONE_CRATE = 1 };

/* Where a text stands that may be absent, in bytes beside the number. */
typedef struct {
    size_t start;     /* the place of its first byte */
    size_t len;       /* how many bytes it has */
    uint8_t is_there; /* 0 where there is no such text */
} phone_part;

/* A phone number. Its texts stand in bytes beside it: `out` of phone_parse. The structs of this header
 * keep their fields: what is to be told besides gets a struct and calls of its own. */
typedef struct {
    uint64_t value;       /* the national number without its leading zeros, below 2^56 */
    phone_part extension; /* what is dialled once the call is answered */
    phone_part carrier;   /* the carrier's selection code */
    uint16_t code;        /* the calling code, as 64 for New Zealand */
    uint8_t source;       /* how it was found: PHONE_SOURCE_PLUS .. */
    uint8_t zeros;        /* how many zeros stand before the value */
} phone_number;
enum {
    PHONE_SOURCE_PLUS = 0, PHONE_SOURCE_IDD = 1, PHONE_SOURCE_NUMBER = 2, PHONE_SOURCE_DEFAULT = 3
};

/* The format of a number: +6433316005, +64 3 331 6005, 03 331 6005, tel:+64-3-331-6005 */
enum {
    PHONE_MODE_E164 = 0, PHONE_MODE_INTERNATIONAL = 1, PHONE_MODE_NATIONAL = 2, PHONE_MODE_RFC3966 = 3
};

/* The kinds of numbers. */
enum {
    PHONE_KIND_FIXED_LINE = 0, PHONE_KIND_MOBILE, PHONE_KIND_FIXED_LINE_OR_MOBILE, PHONE_KIND_TOLL_FREE,
    PHONE_KIND_PREMIUM_RATE, PHONE_KIND_SHARED_COST, PHONE_KIND_PERSONAL_NUMBER, PHONE_KIND_VOIP,
    PHONE_KIND_PAGER, PHONE_KIND_UAN, PHONE_KIND_EMERGENCY, PHONE_KIND_VOICEMAIL, PHONE_KIND_SHORT_CODE,
    PHONE_KIND_STANDARD_RATE, PHONE_KIND_CARRIER, PHONE_KIND_NO_INTERNATIONAL, PHONE_KIND_UNKNOWN
};

/* What is known of a text as a short number of a region. Each but the cost is 1, else 0. */
typedef struct {
    uint32_t cost;               /* what a call costs: PHONE_COST_TOLL_FREE .. */
    uint8_t is_possible;         /* the count of its digits is possible */
    uint8_t is_valid;            /* it is a short number of the region */
    uint8_t is_carrier_specific; /* only some carriers connect it */
    uint8_t is_emergency;        /* it is an emergency number */
    uint8_t reaches_emergency;   /* it reaches emergency services */
} phone_short_facts;
enum {
    PHONE_COST_TOLL_FREE = 0, PHONE_COST_STANDARD_RATE = 1, PHONE_COST_PREMIUM_RATE = 2,
    PHONE_COST_UNKNOWN = 3
};

/* Whether the count of a number's digits is possible: as it is, or inside its area alone; else why not. */
enum {
    PHONE_LENGTH_POSSIBLE = 0,
    PHONE_LENGTH_POSSIBLE_LOCALLY = 1, /* where it is dialled inside its area */
    PHONE_LENGTH_TOO_SHORT = 2,        /* each number there has more: while one is typed, go on */
    PHONE_LENGTH_TOO_LONG = 3,         /* each has fewer */
    PHONE_LENGTH_WRONG_LENGTH = 4,     /* some have fewer and some more, or none is listed */
    PHONE_LENGTH_UNKNOWN_CODE = 5      /* no territory has the calling code */
};

/* How like two numbers are. */
enum {
    PHONE_MATCH_EXACT = 0,    /* one calling code, national number, and extension or none */
    PHONE_MATCH_NUMBER = 1,   /* the extensions differ */
    PHONE_MATCH_NATIONAL = 2, /* one has no calling code, and the national numbers are one */
    PHONE_MATCH_END = 3,      /* one's national number is an end of the other's, of 7 digits at least */
    PHONE_MATCH_DIFFERENT = 4 /* none of these */
};

/* How like two numbers are by libphonenumber's rules, told by phone_match_numbers and its like. */
enum {
    PHONE_NOT_A_NUMBER = 0,    /* a text is no number */
    PHONE_NO_MATCH = 1,        /* two numbers */
    PHONE_SHORT_NSN_MATCH = 2, /* one's national number is an end of the other's, or one has an extension */
    PHONE_NSN_MATCH = 3,       /* one national number; the calling code of one isn't known, or was guessed */
    PHONE_EXACT_MATCH = 4      /* one calling code, national number, and extension or none */
};

/* What is known of a region. */
typedef struct {
    uint16_t code;       /* its calling code, as 64 for New Zealand */
    uint8_t is_nanpa;    /* 1 where that is 1, of the North American Numbering Plan, else 0 */
    uint8_t is_portable; /* 1 where a mobile number is kept when the carrier is changed, else 0 */
} phone_region_facts;

/* What is known of a number, its digits being those of the national number with its leading zeros. */
typedef struct {
    size_t area_length;             /* how many of its digits are its area's code; 0 where it has none */
    size_t destination_length;      /* how many are its national destination code; 0 where it has none */
    uint8_t is_geographical;        /* 1 where it is of a place, else 0 */
    uint8_t is_dialled_from_abroad; /* 1 unless its region says that it is dialled at home alone, else 0 */
} phone_number_facts;

/* What is made of a text by phone_normalize. */
enum {
    PHONE_FORM_KEYS = 0,     /* each letter is turned to the digit of its key; all else stays */
    PHONE_FORM_DIGITS = 1,   /* the values of its digits of any script, as 0 to 9; nothing else stays */
    PHONE_FORM_DIALLABLE = 2 /* its digits from 0 to 9, plus signs, stars and number signs; nothing else */
};

/* What is found in a text: what is parsed as a possible number, or as a valid one; of phone_matches and
 * phone_matches_by also what is valid and has the groups of digits of a format in their order, or exactly. */
enum {
    PHONE_IF_POSSIBLE = 0,
    PHONE_IF_VALID = 1,
    PHONE_IF_STRICT_GROUPING = 2,
    PHONE_IF_EXACT_GROUPING = 3
};

/* Where a number stands in a text, in bytes: from `start` to before `end`. */
typedef struct { size_t start; size_t end; } phone_place;

/* A column of texts as Arrow lays it out: the i-th stands in `bytes` from offsets[i] to before
 * offsets[i + 1], and there is one offset more than texts; without an offset there is no text. The bitmap
 * says which texts are there: eight flags a byte, the first of a byte its lowest bit, the first text's at
 * place `first`; it may have no byte, where each is there. Of default regions without an offset `bytes` is
 * the one of all texts. Arrow's offsets, which have a sign and are never negative, are the same in memory. */
typedef struct {
    const uint64_t *offsets;
    size_t offsets_len;
    const uint8_t *bytes;
    size_t bytes_len;
    const uint8_t *bits;
    size_t bits_len;
    size_t first;
} phone_texts;

/* The same with offsets of 32 bits. */
typedef struct {
    const uint32_t *offsets;
    size_t offsets_len;
    const uint8_t *bytes;
    size_t bytes_len;
    const uint8_t *bits;
    size_t bits_len;
    size_t first;
} phone_narrow_texts;

/* The columns that phone_columns writes: each is one buffer with a value a row, but for texts and the last.
 * A row has no number where its text isn't there or is none: then its value is 0, its text empty. */
enum {
    PHONE_COLUMN_E164 = 0,           /* texts, as two buffers: offsets of 64 bits, one more than rows; bytes */
    PHONE_COLUMN_INTERNATIONAL = 1,
    PHONE_COLUMN_NATIONAL = 2,
    PHONE_COLUMN_RFC3966 = 3,
    PHONE_COLUMN_CODE = 4,           /* 16 bits: the calling code */
    PHONE_COLUMN_VALUE = 5,          /* 64 bits: the national number without its leading zeros */
    PHONE_COLUMN_ZEROS = 6,          /* a byte: how many zeros stand before it */
    PHONE_COLUMN_KIND = 7,           /* a byte: PHONE_KIND_FIXED_LINE .. */
    PHONE_COLUMN_REGION = 8,         /* two bytes: the region's letters; 0 and 0 where it has none */
    PHONE_COLUMN_VALIDITY = 9,       /* a byte: 1 where the number is valid */
    PHONE_COLUMN_SOURCE = 10,        /* a byte: PHONE_SOURCE_PLUS .. */
    PHONE_COLUMN_REFUSAL = 11,       /* a byte: what phone_parse answers of it, PHONE_OK where it isn't there */
    PHONE_COLUMN_IS_NUMBER = 12      /* a bitmap: which rows have a number, so which values of others count */
};

/* The sets of values that have words, for phone_word. */
enum {
    PHONE_KIND_WORDS = 0, PHONE_SOURCE_WORDS, PHONE_POSSIBILITY_WORDS, PHONE_SAMENESS_WORDS,
    PHONE_COST_WORDS
};

/* A text of length 0 may be null for the caller, but not for a call. */
static inline const uint8_t *phone_text(const void *text, size_t len) {
    return len ? (const uint8_t *)text : (const uint8_t *)"";
}

/* A column of so many texts; each of the pointers is null where it has nothing. `bits` is as long as need
 * be. */
static inline phone_texts phone_texts_of(const uint64_t *offsets, size_t count, const void *bytes,
                                         const uint8_t *bits, size_t first) {
    static const uint64_t none = 0;
    phone_texts texts;
    texts.offsets = offsets ? offsets : &none;
    texts.offsets_len = count + 1;
    texts.bytes_len = (size_t)texts.offsets[count];
    texts.bytes = phone_text(bytes, texts.bytes_len);
    texts.bits_len = bits ? (first + count + 7) / 8 : 0;
    texts.bits = phone_text(bits, texts.bits_len);
    texts.first = first;
    return texts;
}
static inline phone_narrow_texts phone_narrow_texts_of(const uint32_t *offsets, size_t count, const void *bytes,
                                                       const uint8_t *bits, size_t first) {
    static const uint32_t none = 0;
    phone_narrow_texts texts;
    texts.offsets = offsets ? offsets : &none;
    texts.offsets_len = count + 1;
    texts.bytes_len = texts.offsets[count];
    texts.bytes = phone_text(bytes, texts.bytes_len);
    texts.bits_len = bits ? (first + count + 7) / 8 : 0;
    texts.bits = phone_text(bits, texts.bits_len);
    texts.first = first;
    return texts;
}

/* One default region for all texts, as "NZ"; of length 0, none. */
static inline phone_texts phone_one_hint(const void *hint, size_t hint_len) {
    phone_texts hints = phone_texts_of(0, 0, hint, 0, 0);
    hints.offsets_len = 0;
    hints.bytes = phone_text(hint, hint_len);
    hints.bytes_len = hint_len;
    return hints;
}
static inline phone_narrow_texts phone_narrow_one_hint(const void *hint, size_t hint_len) {
    phone_narrow_texts hints = phone_narrow_texts_of(0, 0, hint, 0, 0);
    hints.offsets_len = 0;
    hints.bytes = phone_text(hint, hint_len);
    hints.bytes_len = hint_len;
    return hints;
}

/* Opens the database that bytes are: a JSON text, as data/world.json, or the compact form of its
 * records, which opens sooner, as data/world.compact (tools/compact makes it of a JSON text); bytes are
 * meant as that where they begin with its first line, "phone_compact 1" and a line feed. What the handle
 * had open is closed first. The handle is asked by these rules. PHONE_OK: it is open. PHONE_NO_RULES
 * exactly where the rules are above 1, else PHONE_NOT_UTF8 exactly where the bytes don't begin so and
 * aren't UTF-8; PHONE_MISSING_VALUE .. PHONE_MALFORMED_REGEX by the first fault of the records,
 * PHONE_MALFORMED_JSON where there are none, in either form; PHONE_MEMORY. For each but PHONE_OK the
 * handle is closed. */
phone_status phone_open(const uint8_t *text, size_t text_len, uint32_t rules, phone_handle *handle);

/* Opens the database of all regions that is in the library, of the version that phone_table_version
 * writes, to be asked by these rules: phone_open of phone_world_text. PHONE_OK, PHONE_NO_RULES or
 * PHONE_MEMORY. It is C over phone_open. */
phone_status phone_open_world(phone_handle *handle, uint32_t rules);

/* The records of that database as JSON, of which phone_open makes the same: a text that is never freed, and
 * its length. It is C, and takes no memory. */
const uint8_t *phone_world_text(size_t *text_len);

/* Opens the newest database of all regions that is here, to be asked by these rules: that of the file
 * world.compact in a folder, where the file VERSION beside it names a later version than
 * phone_table_version does, and phone_open takes it; else the one in the library. Writes the version of
 * the one that it took to the front of `out`, and its length to `wrote`. The folder is a path; length 0
 * means the folder that the environment variable PHONE_TABLES names, or where there is no such variable,
 * share/phonenumber-proved of the prefix that the library is installed under. PHONE_OK, PHONE_NO_RULES,
 * PHONE_TOO_SMALL as phone_report has it, PHONE_MEMORY. For each but PHONE_OK the handle is closed. It is
 * C over the two calls, and loads files. */
phone_status phone_open_newest(phone_handle *handle, uint32_t rules, const uint8_t *folder, size_t folder_len,
    uint8_t *out, size_t out_len, size_t *wrote);

/* Opens behind `mine` the database that is open behind `world`, to be asked by the same rules: a second
 * handle on one database, for a part of a program that closes it when it likes, say. It takes a few
 * bytes and copies no database. The handles are two variables. What `mine` had open is closed first,
 * whatever comes. PHONE_OK: it is open. PHONE_IS_CLOSED exactly where `world` is closed; PHONE_MEMORY.
 * For each but PHONE_OK `mine` is closed. The database is freed with the last handle on it. */
phone_status phone_share(phone_handle *world, phone_handle *mine);

/* The same, to be asked by these rules. PHONE_NO_RULES exactly where they are above 1, before all else. */
phone_status phone_share_by(phone_handle *world, uint32_t rules, phone_handle *mine);

/* Closes a handle; nothing where it is closed. The last one on a database frees it. */
void phone_close(phone_handle *handle);

/* Writes the report line of a line, without a line feed, to the front of `out`, and its length to
 * `wrote`. The line is any bytes without their end: the program drops a line feed and one carriage
 * return before it, a caller does so where lines have them. `hint` is the default region: the id of the
 * region in which the line was written, as "NZ"; of length 0, none. PHONE_IS_CLOSED exactly where nothing
 * is open, else PHONE_NO_REGION exactly where `hint` has a byte and is no id; PHONE_TOO_SMALL only
 * where `out` is shorter than the answer: `wrote` is then the length that it needs; PHONE_MEMORY.
 * For each but PHONE_OK `out` is as it was, and for each but PHONE_OK and PHONE_TOO_SMALL `wrote` is
 * 0. */
phone_status phone_report(phone_handle *handle, const uint8_t *hint, size_t hint_len,
                          const uint8_t *line, size_t line_len, uint8_t *out, size_t out_len,
                          size_t *wrote);

/* Parses a text as a phone number, with a default region as phone_report, into `number`; its texts,
 * extension and then carrier, go to the front of `out`, and their length to `wrote`. A buffer as long
 * as the text is seldom too short; PHONE_TOO_SMALL tells the length. PHONE_IS_CLOSED, PHONE_NO_REGION
 * and PHONE_MEMORY as phone_report has them; else PHONE_NOT_UTF8 exactly where the text isn't UTF-8;
 * 1 to 6: why it is no number. For each but PHONE_OK `number` and `out` are as they were. */
phone_status phone_parse(phone_handle *handle, const uint8_t *hint, size_t hint_len,
                         const uint8_t *text, size_t text_len, phone_number *number, uint8_t *out,
                         size_t out_len, size_t *wrote);

/* Writes the text of a number in a mode to the front of `out`, and its length to `wrote`. `bytes` are
 * those in which the number's texts stand. PHONE_IS_CLOSED exactly where nothing is open, else
 * PHONE_NO_MODE exactly where the mode is above 3, then PHONE_BAD_NUMBER exactly where it is no
 * number: a source above 3, a value of 2^56 or more, a text outside `bytes` or not UTF-8.
 * PHONE_UNKNOWN_CODE only where no territory has the calling code. PHONE_TOO_SMALL and PHONE_MEMORY as
 * phone_report has them. By the rules of libphonenumber the text leaves out the carrier's code;
 * the number's texts are looked at all the same. */
phone_status phone_format(phone_handle *handle, const phone_number *number, const uint8_t *bytes,
                          size_t bytes_len, uint32_t mode, uint8_t *out, size_t out_len, size_t *wrote);

/* Tells the kind of a number: PHONE_KIND_FIXED_LINE .. PHONE_IS_CLOSED exactly where nothing is open, else
 * PHONE_BAD_NUMBER exactly where source or value is out of range; PHONE_MEMORY. The number's texts are
 * not looked at. For each but PHONE_OK `told` is as it was. */
phone_status phone_kind(phone_handle *handle, const phone_number *number, uint32_t *told);

/* Writes the id of a number's region, as "NZ", or no byte where it has none. Its statuses are those of
 * phone_kind, and PHONE_TOO_SMALL. */
phone_status phone_region(phone_handle *handle, const phone_number *number, uint8_t *out,
                          size_t out_len, size_t *wrote);

/* Tells whether a number is valid: 1, else 0. Its statuses are those of phone_kind. */
phone_status phone_is_valid(phone_handle *handle, const phone_number *number, uint8_t *told);

/* Tells whether the count of a number's digits is possible: PHONE_LENGTH_POSSIBLE .. Its
 * statuses are those of phone_kind. */
phone_status phone_possibility(phone_handle *handle, const phone_number *number, uint32_t *told);

/* The same of a text, which may not be whole yet, with a default region as phone_report. A text that is no
 * number for its length or its calling code has PHONE_LENGTH_TOO_SHORT and the like.
 * PHONE_IS_CLOSED, PHONE_NO_REGION and PHONE_NOT_UTF8 as phone_parse has them; else
 * PHONE_NO_NUMBER or PHONE_MALFORMED_INTEGER; PHONE_MEMORY. */
phone_status phone_text_possibility(phone_handle *handle, const uint8_t *hint, size_t hint_len,
                                    const uint8_t *text, size_t text_len, uint32_t *told);

/* Tells how like the numbers of two texts are, each perhaps without its calling code: PHONE_MATCH_EXACT ..
 * PHONE_IS_CLOSED; else PHONE_NOT_UTF8 exactly where one of the texts isn't UTF-8; 1 to
 * 6: why the first text is no number, else why the second is none; PHONE_MEMORY. */
phone_status phone_compare(phone_handle *handle, const uint8_t *first, size_t first_len,
                           const uint8_t *second, size_t second_len, uint32_t *told);

/* Writes how a number is dialled from a region, whose id is as "NZ": its national text there, and else
 * an international prefix, its calling code and its digits. `number` and `bytes` are as phone_format
 * takes them. PHONE_IS_CLOSED exactly where nothing is open, else PHONE_NO_REGION exactly where the
 * region is no id, else PHONE_BAD_NUMBER as phone_format has it. PHONE_NO_TERRITORY only where the
 * database has no territory of the region, PHONE_UNKNOWN_CODE only where none has the calling code;
 * PHONE_TOO_SMALL, PHONE_MEMORY. */
phone_status phone_dialled_from(phone_handle *handle, const uint8_t *region, size_t region_len,
                                const phone_number *number, const uint8_t *bytes, size_t bytes_len,
                                uint8_t *out, size_t out_len, size_t *wrote);

/* Writes the example number of a region and a kind, parsed with that default region, as phone_parse
 * writes a number. PHONE_IS_CLOSED, PHONE_NO_REGION, PHONE_NO_KIND, and
 * PHONE_NO_EXAMPLE exactly where so, in this order; 1 to 6: why the example is no number;
 * PHONE_TOO_SMALL, PHONE_MEMORY. */
phone_status phone_example(phone_handle *handle, const uint8_t *region, size_t region_len,
                           uint32_t kind, phone_number *number, uint8_t *out, size_t out_len,
                           size_t *wrote);

/* Writes the ids of the database's regions, by the alphabet, two bytes each with nothing between them.
 * PHONE_IS_CLOSED exactly where nothing is open; PHONE_TOO_SMALL, PHONE_MEMORY. */
phone_status phone_regions(phone_handle *handle, uint8_t *out, size_t out_len, size_t *wrote);

/* Writes the database's calling codes, ascending. Its statuses are those of phone_regions. Here `out_len`
 * and `wrote` count codes, and not bytes. */
phone_status phone_codes(phone_handle *handle, uint16_t *out, size_t out_len, size_t *wrote);

/* Writes where numbers are in a text, from its front on; they don't overlap. phone_parse parses each of
 * these pieces, with the same handle and default region, as the number that was found. `out_len` and `wrote`
 * count places: no text has more than bytes. PHONE_IS_CLOSED,
 * PHONE_NO_LENIENCY, PHONE_NO_REGION, PHONE_NOT_UTF8 exactly where so, in this order; PHONE_TOO_SMALL,
 * PHONE_MEMORY. */
phone_status phone_find(phone_handle *handle, const uint8_t *hint, size_t hint_len,
                        uint32_t leniency, const uint8_t *text, size_t text_len, phone_place *out,
                        size_t out_len, size_t *wrote);

/* Parses each text of a column by itself, with the default region at its place or the one of all, as
 * phone_parse does, and writes what columns, PHONE_COLUMN_E164 .., tell of it. Their buffers go to the
 * front of `out`, in the order of `columns`, each at a multiple of eight bytes with zeros between; where
 * each begins and ends goes to the front of `places`, two for a column of texts, else one; the length of
 * all goes to `wrote`. Row i of a column is what phone_parse and the calls over its number tell of text i
 * alone, so a column may be cut into pieces, and each given to a thread with a handle of its own. A row has
 * PHONE_NO_REGION where its default region is no region's id, PHONE_NOT_UTF8 where its text isn't UTF-8; a
 * default region that isn't there is none. PHONE_IS_CLOSED exactly where nothing is open, else
 * PHONE_BAD_LAYOUT exactly where an offset of the texts is below the one before it or past the bytes, or
 * the bitmap lacks a flag, or the default regions, if there are offsets, are so or not as many as the
 * texts; else PHONE_NO_COLUMN exactly where no column has one of the numbers. PHONE_TOO_SMALL only where
 * `out` or `places` is too short: `wrote` is then the length that `out` needs; PHONE_MEMORY. For each but
 * PHONE_OK `out` and `places` are as they were, and for each but PHONE_OK and PHONE_TOO_SMALL `wrote` is 0.
 * While it works it takes some 100 bytes a row, and a few times what it writes. */
phone_status phone_columns(phone_handle *handle, const phone_texts *texts, const phone_texts *hints,
                           const uint32_t *columns, size_t columns_len, phone_place *places,
                           size_t places_len, uint8_t *out, size_t out_len, size_t *wrote);

/* The same of offsets of 32 bits, for whose copies of 64 bits memory is taken before all else. */
phone_status phone_narrow_columns(phone_handle *handle, const phone_narrow_texts *texts,
                                  const phone_narrow_texts *hints, const uint32_t *columns,
                                  size_t columns_len, phone_place *places, size_t places_len,
                                  uint8_t *out, size_t out_len, size_t *wrote);

/* Writes what is shown of a number while it is typed, by libphonenumber's formats, to the front of
 * `out`, and its length to `wrote`: of the keys of all that was typed so far. `keys` is a text in
 * UTF-8, whose keys are its digits of any script and a plus sign before all of them; its other
 * characters are no keys and change nothing. What is shown is these keys, the digits as 0 to 9, with
 * spaces, round brackets, hyphens and full stops between them. `hint` is the default region, as of
 * phone_report, in which digits without a plus sign are dialled. A handle holds nothing of what is
 * typed: each call is given all of it. PHONE_IS_CLOSED, PHONE_NO_REGION, PHONE_TOO_SMALL and
 * PHONE_MEMORY as phone_report has them; else PHONE_NOT_UTF8 exactly where the keys aren't UTF-8. */
phone_status phone_typing_shown(phone_handle *handle, const uint8_t *hint, size_t hint_len,
                                const uint8_t *keys, size_t keys_len, uint8_t *out, size_t out_len,
                                size_t *wrote);

/* Tells after how many characters of what phone_typing_shown shows of these keys the n-th key stands,
 * counted from 1: where the caret stands after it. 0 for no key, all characters from the last key on.
 * Each character that is shown is one byte. Its statuses are those of phone_typing_shown, but for
 * PHONE_TOO_SMALL. For each but PHONE_OK `told` is as it was. */
phone_status phone_typing_caret(phone_handle *handle, const uint8_t *hint, size_t hint_len,
                                const uint8_t *keys, size_t keys_len, size_t n, size_t *told);

/* Writes what libphonenumber's formatter shows of a number while it is typed: marks that come and go as
 * keys are typed, where phone_typing_shown shows those of the whole number's format. `typed` is all that was
 * typed so far, in UTF-8: a digit of any script is the key of its value, and `+` before all else is one;
 * after any other character all is shown as it was typed. Its time grows with the square of the text's
 * length. Its statuses are those of phone_typing_shown. */
phone_status phone_keyed_shown(phone_handle *handle, const uint8_t *hint, size_t hint_len,
                               const uint8_t *typed, size_t typed_len, uint8_t *out, size_t out_len,
                               size_t *wrote);

/* Tells after how many characters of what phone_keyed_shown shows of this text its n-th character stands,
 * counted from 1: where the caret stands after it. 0 for none. A digit of another script that is shown as it
 * was typed is one character, and several bytes. Its statuses are those of phone_typing_caret. */
phone_status phone_keyed_caret(phone_handle *handle, const uint8_t *hint, size_t hint_len,
                               const uint8_t *typed, size_t typed_len, size_t n, size_t *told);

/* Tells what is known of a text as a short number of a region, under a handle that was opened on a
 * database of short numbers (data/short.json is one); `region` is the region's id, as "NZ".
 * PHONE_IS_CLOSED exactly where nothing is open, else PHONE_NO_REGION exactly where the region is no
 * id, else PHONE_NOT_UTF8 exactly where the text isn't UTF-8; PHONE_MEMORY. For each but PHONE_OK
 * `facts` is as it was. */
phone_status phone_short(phone_handle *handle, const uint8_t *region, size_t region_len,
                         const uint8_t *text, size_t text_len, phone_short_facts *facts);

/* The calls from here to phone_has_letters answer libphonenumber's further questions by its rules, whatever
 * the rules of the handle.
 *
 * Tells what is known of a region, whose id is as "NZ". PHONE_IS_CLOSED exactly where nothing is open, else
 * PHONE_NO_REGION exactly where the region is no id, else PHONE_NO_TERRITORY exactly where the database has no
 * territory of it. It takes no memory. For each but PHONE_OK `facts` is as it was. */
phone_status phone_about_region(phone_handle *handle, const uint8_t *region, size_t region_len,
                                phone_region_facts *facts);

/* Writes the national prefix of a region, dialled there before a national number, or no byte where it has
 * none. A tilde in it means to wait for a tone; where `only_digits` isn't 0, tildes are left out.
 * PHONE_IS_CLOSED, PHONE_NO_REGION exactly where so, in this order; PHONE_TOO_SMALL, PHONE_MEMORY. */
phone_status phone_national_prefix(phone_handle *handle, const uint8_t *region, size_t region_len,
                                   uint8_t only_digits, uint8_t *out, size_t out_len, size_t *wrote);

/* Writes the kinds of number that a region has, PHONE_KIND_FIXED_LINE .., in libphonenumber's order: fixed
 * line, mobile, toll free, premium rate, shared cost, over the internet, personal, pager, company's,
 * voicemail; none where the database has no territory of it. `out_len` and `wrote` count kinds. Its statuses
 * are those of phone_national_prefix. */
phone_status phone_region_kinds(phone_handle *handle, const uint8_t *region, size_t region_len,
                                uint32_t *out, size_t out_len, size_t *wrote);

/* Writes the id of a calling code's main region, as "GB", or "001" for a code that serves no region.
 * PHONE_IS_CLOSED exactly where nothing is open, else PHONE_UNKNOWN_CODE exactly where no territory has the
 * code; PHONE_TOO_SMALL. It takes no memory. */
phone_status phone_main_region(phone_handle *handle, uint16_t code, uint8_t *out, size_t out_len,
                               size_t *wrote);

/* Writes the kinds of number of a calling code that serves no region, as phone_region_kinds writes those of
 * a region; none for other codes. PHONE_IS_CLOSED exactly where nothing is open; PHONE_TOO_SMALL,
 * PHONE_MEMORY. */
phone_status phone_code_kinds(phone_handle *handle, uint16_t code, uint32_t *out, size_t out_len,
                              size_t *wrote);

/* Writes what stands before the area code of a mobile number of a calling code: "9" for 54, no byte for
 * others. It needs no database and takes no memory. PHONE_OK, or PHONE_TOO_SMALL as phone_report has it. */
phone_status phone_mobile_token(uint16_t code, uint8_t *out, size_t out_len, size_t *wrote);

/* Tells what is known of a number, whose texts are not looked at, also of one that isn't valid. Its statuses
 * are those of phone_kind. For each but PHONE_OK `facts` is as it was. */
phone_status phone_about_number(phone_handle *handle, const phone_number *number,
                                phone_number_facts *facts);

/* Tells whether a number is valid for the territory of its calling code that has this id, as "NZ", or "001"
 * of a code that serves no region: 1, else 0. Its texts are not looked at. PHONE_IS_CLOSED exactly where
 * nothing is open, else PHONE_NOT_UTF8 exactly where the id isn't UTF-8, else PHONE_BAD_NUMBER as phone_kind
 * has it; PHONE_MEMORY. For each but PHONE_OK `told` is as it was. */
phone_status phone_is_valid_for(phone_handle *handle, const uint8_t *id, size_t id_len,
                                const phone_number *number, uint8_t *told);

/* Tells what the count of a number's digits says of it as a number of a kind, PHONE_LENGTH_POSSIBLE ..;
 * PHONE_KIND_UNKNOWN is any kind. PHONE_LENGTH_WRONG_LENGTH also where the main territory of its calling code
 * has no number of the kind. PHONE_IS_CLOSED exactly where nothing is open, else PHONE_NO_KIND exactly where
 * the kind is above 16, else PHONE_BAD_NUMBER as phone_kind has it; PHONE_MEMORY. For each but PHONE_OK
 * `told` is as it was. */
phone_status phone_possibility_as(phone_handle *handle, uint32_t kind, const phone_number *number,
                                  uint32_t *told);

/* Tells whether numbers of a kind are of a place under a calling code: 1, else 0. It needs no database and
 * takes no memory. PHONE_NO_KIND exactly where the kind is above 16; `told` is then as it was. */
phone_status phone_is_geographical(uint32_t kind, uint16_t code, uint8_t *told);

/* Cuts digits off the end of a number until it is valid, and tells whether it is: 1, and `number` is what is
 * left; else 0, and it is as it was. A valid number stays whole. Its texts stay at their places, and are not
 * looked at. Its statuses are those of phone_kind. For each but PHONE_OK `number` and `told` are as they
 * were. */
phone_status phone_truncate(phone_handle *handle, phone_number *number, uint8_t *told);

/* Tells how like two numbers are, PHONE_NO_MATCH .., given as phone_format takes them; one whose calling code
 * is 0 is one whose code isn't known. It needs no database. PHONE_BAD_NUMBER exactly where one of them is no
 * number; PHONE_MEMORY. For each but PHONE_OK `told` is as it was. */
phone_status phone_match_numbers(const phone_number *first, const uint8_t *first_bytes,
                                 size_t first_bytes_len, const phone_number *second,
                                 const uint8_t *second_bytes, size_t second_bytes_len, uint32_t *told);

/* The same of a number and a text, perhaps without its calling code, which is then parsed in the main region of
 * the number's. PHONE_IS_CLOSED exactly where nothing is open, else PHONE_NOT_UTF8 exactly where the text
 * isn't UTF-8, else PHONE_BAD_NUMBER exactly where `number` and `bytes` are no number; PHONE_MEMORY. */
phone_status phone_match_text(phone_handle *handle, const phone_number *number, const uint8_t *bytes,
                              size_t bytes_len, const uint8_t *text, size_t text_len, uint32_t *told);

/* The same of two texts. phone_compare tells of them by other rules, which take fewer numbers for ends of
 * others. PHONE_IS_CLOSED exactly where nothing is open, else PHONE_NOT_UTF8 exactly where one of the texts
 * isn't UTF-8; PHONE_MEMORY. */
phone_status phone_match_texts(phone_handle *handle, const uint8_t *first, size_t first_len,
                               const uint8_t *second, size_t second_len, uint32_t *told);

/* Writes the national text of a number as it is dialled with the selection code of a carrier; where
 * `prefers_own` isn't 0, with the number's own, if it has one. `number` and `bytes` are as phone_format takes
 * them. No byte is no carrier. A number whose calling code the database lacks is written as its digits.
 * PHONE_IS_CLOSED exactly where nothing is open, else PHONE_NOT_UTF8 exactly where the carrier isn't UTF-8,
 * else PHONE_BAD_NUMBER as phone_format has it; PHONE_TOO_SMALL, PHONE_MEMORY. */
phone_status phone_national_with(phone_handle *handle, const phone_number *number, const uint8_t *bytes,
                                 size_t bytes_len, const uint8_t *carrier, size_t carrier_len,
                                 uint8_t prefers_own, uint8_t *out, size_t out_len, size_t *wrote);

/* Writes a text in a form, PHONE_FORM_KEYS .. It needs no database. PHONE_NO_MODE exactly where the form is
 * above 2, else PHONE_NOT_UTF8 exactly where the text isn't UTF-8; PHONE_TOO_SMALL, PHONE_MEMORY. */
phone_status phone_normalize(uint32_t form, const uint8_t *text, size_t text_len, uint8_t *out,
                             size_t out_len, size_t *wrote);

/* Tells whether a text is a number that is written with letters, three at least, as "1-800-FLOWERS": 1, else
 * 0. It needs no database and takes no memory. PHONE_NOT_UTF8 exactly where the text isn't UTF-8; `told` is
 * then as it was. */
phone_status phone_has_letters(const uint8_t *text, size_t text_len, uint8_t *told);

/* Opens the table of prefixes that a text is: each line a prefix of 1 to 15 digits, a tab, and a text
 * in UTF-8; a carriage return at a line's end is dropped. What was open there is closed first.
 * PHONE_OK: it is open. PHONE_LINE_EMPTY .. PHONE_LINE_TWICE by the first line that is no entry:
 * `line` is its number, counted from 1, and for all other statuses 0. PHONE_MEMORY. For each but
 * PHONE_OK the table is closed. */
phone_status phone_prefixes_open(const uint8_t *text, size_t text_len, phone_prefixes *prefixes,
                                 size_t *line);

/* Opens behind `mine` the table of prefixes that is open behind `prefixes`, as phone_share does with
 * databases, and with its statuses. */
phone_status phone_prefixes_share(phone_prefixes *prefixes, phone_prefixes *mine);

/* Closes a handle of a table of prefixes; nothing where it is closed. The last one on a table frees it. */
void phone_prefixes_close(phone_prefixes *prefixes);

/* Writes the text of the longest prefix that begins these digits, such as those of phone_key after the
 * plus sign, to the front of `out`, its length to `wrote`, and the length of the prefix to
 * `prefix_len`. PHONE_IS_CLOSED exactly where nothing is open, else PHONE_NOT_UTF8 exactly where the
 * digits aren't UTF-8, else PHONE_NO_PREFIX exactly where no prefix begins them; PHONE_TOO_SMALL as
 * phone_report has it. It takes no memory. For each but PHONE_OK `out` and `prefix_len` are as they
 * were, and for each but PHONE_OK and PHONE_TOO_SMALL `wrote` is 0. */
phone_status phone_prefixes_longest(phone_prefixes *prefixes, const uint8_t *digits,
                                    size_t digits_len, uint8_t *out, size_t out_len, size_t *wrote,
                                    size_t *prefix_len);

/* Opens an atlas of a locale, as "de", "zh_TW" or "sr-Latn-RS". The tables of prefixes are those of its
 * language, of areas and of carriers, each with that of English, which is asked where the language's has
 * nothing, unless the language is Chinese, Japanese or Korean. They are four handles, none of them twice,
 * closed where there is no table; they stay as they were, and the atlas stands on the same tables. The
 * names are lines of a region's id, a tab and its name in UTF-8; the first name of a region counts, so those
 * of "de-at" may stand before those of "de". What was open there is closed first. PHONE_OK: it is open.
 * PHONE_NOT_UTF8: locale or names aren't UTF-8. PHONE_LINE_NO_TAB: a line of the names has no tab; `line` is
 * the number of the first, counted from 1, and for all other statuses 0. PHONE_MEMORY. For each but PHONE_OK
 * the atlas is closed. */
phone_status phone_atlas_open(const uint8_t *locale, size_t locale_len, phone_prefixes *areas,
                              phone_prefixes *english_areas, phone_prefixes *carriers,
                              phone_prefixes *english_carriers, const uint8_t *names, size_t names_len,
                              phone_atlas *atlas, size_t *line);

/* Closes a handle of an atlas; nothing where it is closed. Tables go with the last of what stands on them. */
void phone_atlas_close(phone_atlas *atlas);

/* Writes the description of a number in the atlas's locale, for a user in a region, which has no byte where
 * none is given: by libphonenumber's rules, whatever those of the handle. It is empty where the number's
 * kind is unknown, and the name of its country where its kind is of no place. Else, and of each number
 * where `as_it_stands` isn't 0: it is empty where the number has no region; the name of its region where
 * the user's is another; else its area, and where none is known the name of its country. PHONE_IS_CLOSED
 * exactly where one of the handles is closed, else PHONE_NOT_UTF8 exactly where the user's region isn't
 * UTF-8, then PHONE_BAD_NUMBER as phone_format has it; PHONE_TOO_SMALL, PHONE_MEMORY. */
phone_status phone_description(phone_handle *handle, phone_atlas *atlas, const phone_number *number,
                               const uint8_t *bytes, size_t bytes_len, const uint8_t *user, size_t user_len,
                               uint8_t as_it_stands, uint8_t *out, size_t out_len, size_t *wrote);

/* Writes the name of the carrier to which a number's range was given first: empty where none is known, and,
 * unless `as_it_stands` isn't 0, where the number's kind has no mobile carrier. Its statuses are those of
 * phone_description. */
phone_status phone_carrier(phone_handle *handle, phone_atlas *atlas, const phone_number *number,
                           const uint8_t *bytes, size_t bytes_len, uint8_t as_it_stands, uint8_t *out,
                           size_t out_len, size_t *wrote);

/* Writes the name of a number's carrier where it is safe to show as today's: empty where a mobile number of
 * the number's region is kept when the carrier changes; else as phone_carrier by the number's kind. Its
 * statuses are those of phone_description. */
phone_status phone_safe_carrier(phone_handle *handle, phone_atlas *atlas, const phone_number *number,
                                const uint8_t *bytes, size_t bytes_len, uint8_t *out, size_t out_len,
                                size_t *wrote);

/* Writes the name of a number's country: empty where none is known, and where the number is valid in several
 * or in none. Its statuses are those of phone_description. */
phone_status phone_country_name(phone_handle *handle, phone_atlas *atlas, const phone_number *number,
                                const uint8_t *bytes, size_t bytes_len, uint8_t *out, size_t out_len,
                                size_t *wrote);

/* Writes the time zones of a number by a table of them, as the table has them: "Etc/Unknown" where it knows
 * none, and where the number's kind is unknown; those of its calling code where its kind is of no place;
 * else, and of each number where `as_it_stands` isn't 0, those of its digits. Its statuses are those of
 * phone_description. */
phone_status phone_time_zones(phone_handle *handle, phone_prefixes *zones, const phone_number *number,
                              const uint8_t *bytes, size_t bytes_len, uint8_t as_it_stands, uint8_t *out,
                              size_t out_len, size_t *wrote);

/* Writes where numbers stand in a text as libphonenumber finds them, but that the two leniencies that look at
 * groups have no alternate formats, which phone_matches_by has; `tries` is how many candidates and pieces
 * without a number are looked at. phone_parse parses each of these pieces, with the same default region and by
 * libphonenumber's rules, as the number that was found. Places and statuses are as of phone_find. */
phone_status phone_matches(phone_handle *handle, const uint8_t *hint, size_t hint_len, uint32_t leniency,
                           uint64_t tries, const uint8_t *text, size_t text_len, phone_place *out,
                           size_t out_len, size_t *wrote);

/* The same by alternate formats, so that all of libphonenumber's leniencies are its own: `alternates` is a
 * second handle, opened on a database of such (data/alternates.json is one), whose records are each of a calling
 * code and have its further `formats`. PHONE_IS_CLOSED exactly where nothing is open behind one of the handles;
 * all else as of phone_matches. */
phone_status phone_matches_by(phone_handle *handle, phone_handle *alternates, const uint8_t *hint,
                              size_t hint_len, uint32_t leniency, uint64_t tries, const uint8_t *text,
                              size_t text_len, phone_place *out, size_t out_len, size_t *wrote);

/* Writes the E.164 text of a number, a key for tables. It needs no database. Equal texts mean
 * equal calling code and national number where no calling code of the database begins another, as in
 * that of the library. PHONE_BAD_NUMBER as phone_kind has it, PHONE_TOO_SMALL, PHONE_MEMORY. */
phone_status phone_key(const phone_number *number, uint8_t *out, size_t out_len, size_t *wrote);

/* Tells whether a text may be a number at all: 1, else 0. It needs no database and takes no memory.
 * PHONE_NOT_UTF8 exactly where the text isn't UTF-8; `told` is then as it was. */
phone_status phone_is_viable(const uint8_t *text, size_t text_len, uint8_t *told);

/* Writes the words of a status, whichever call answered it, to the front of `out`, and their length to
 * `wrote`: "not a number" of PHONE_NO_NUMBER. It needs no database and takes no memory. PHONE_NO_WORD
 * exactly where no call answers the number; PHONE_TOO_SMALL as phone_report has it. */
phone_status phone_status_words(phone_status status, uint8_t *out, size_t out_len, size_t *wrote);

/* Writes the word of a value of a set, PHONE_KIND_WORDS .., to the front of `out`, and its length to
 * `wrote`: "FixedLine" of a kind. It needs no database and takes no memory. PHONE_NO_WORD exactly where
 * the set has no such value, or there is no such set; PHONE_TOO_SMALL as phone_report has it. */
phone_status phone_word(uint32_t set, uint32_t value, uint8_t *out, size_t out_len, size_t *wrote);

/* The version of these calls. From 3 on a version has the calls of those before it, with what they take
 * and mean: a library serves this header where its version is PHONE_VERSION or a later one. */
uint32_t phone_version(void);
#define PHONE_VERSION 3u

/* Writes the version of the database that this library was released with, as "libphonenumber 9.0.35", to
 * the front of `out`, and its length to `wrote`; a caller may open another. It needs no database
 * and takes no memory. PHONE_OK, or PHONE_TOO_SMALL as phone_report has it. */
phone_status phone_table_version(uint8_t *out, size_t out_len, size_t *wrote);

/* How a number is written so that it can be dialled, or as it was written, and what it is as a short number
 * where its region isn't given: by libphonenumber's rules, whatever those of the handle. `raw` is the text that
 * the number was parsed from, of which it keeps nothing, and has no byte where it isn't known. `number` and
 * `bytes` are as phone_format takes them. */

/* Writes the text of a number in a mode, as phone_format does: but `raw` stands for a number whose value is 0,
 * and one whose calling code the database lacks is written in E.164, or as its digits in the other modes.
 * PHONE_IS_CLOSED exactly where nothing is open, else PHONE_NO_MODE exactly where the mode is above 3, else
 * PHONE_NOT_UTF8 exactly where `raw` isn't UTF-8, else PHONE_BAD_NUMBER as phone_format has it;
 * PHONE_TOO_SMALL, PHONE_MEMORY. */
phone_status phone_format_read(phone_handle *handle, uint32_t mode, const uint8_t *raw, size_t raw_len,
                               const phone_number *number, const uint8_t *bytes, size_t bytes_len,
                               uint8_t *out, size_t out_len, size_t *wrote);

/* Writes what a mobile phone dials to reach a number where a region's id is `id`, or "001" for the whole
 * world: without its extension; no byte where the number can't be dialled there. Where `with_symbols` is 0
 * only digits from 0 to 9, plus signs, stars and number signs are written. PHONE_IS_CLOSED exactly where
 * nothing is open, else PHONE_NOT_UTF8 exactly where `id` or `raw` isn't UTF-8, else PHONE_BAD_NUMBER as
 * phone_format has it; PHONE_TOO_SMALL, PHONE_MEMORY. */
phone_status phone_mobile_text(phone_handle *handle, const uint8_t *id, size_t id_len, uint8_t with_symbols,
                               const uint8_t *raw, size_t raw_len, const phone_number *number,
                               const uint8_t *bytes, size_t bytes_len, uint8_t *out, size_t out_len,
                               size_t *wrote);

/* Writes how a number is dialled from a region; from none, where the region has no byte, and from one that the
 * database lacks, as international text. Between regions of the code 1 a "1 " stands in front of its national
 * text, which phone_dialled_from leaves out. PHONE_IS_CLOSED exactly where nothing is open, else
 * PHONE_NO_REGION exactly where the region has a byte and is no region's id, else PHONE_NOT_UTF8 exactly where
 * `raw` isn't UTF-8, else PHONE_BAD_NUMBER as phone_format has it; PHONE_TOO_SMALL, PHONE_MEMORY. */
phone_status phone_text_from(phone_handle *handle, const uint8_t *region, size_t region_len,
                             const uint8_t *raw, size_t raw_len, const phone_number *number,
                             const uint8_t *bytes, size_t bytes_len, uint8_t *out, size_t out_len,
                             size_t *wrote);

/* Writes a number in the way in which `raw` was written, of which no digit is lost and to which none is added;
 * without it, as national text. The region is where the number would be dialled from. How the calling code was
 * found counts: the number is that of phone_parse. Its statuses are those of phone_text_from. */
phone_status phone_original_text(phone_handle *handle, const uint8_t *region, size_t region_len,
                                 const uint8_t *raw, size_t raw_len, const phone_number *number,
                                 const uint8_t *bytes, size_t bytes_len, uint8_t *out, size_t out_len,
                                 size_t *wrote);

/* Writes the text of a number in a mode by formats of the caller's: those of the record "001" of the database
 * behind `layouts`, of which the first counts that suits the digits. phone_open takes such a database, as
 *   [{"id": "001", "country_code": 1, "general": {"national_number": "1"}, "formats":
 *     [{"pattern": "(\\d)(\\d+)", "format": "$1 $2", "national_prefix_formatting_rule": "($NP$FG)"}]}]
 * PHONE_IS_CLOSED exactly where nothing is open behind one of the handles, which are two, else PHONE_NO_MODE
 * exactly where the mode is above 3, else PHONE_BAD_NUMBER as phone_format has it; PHONE_TOO_SMALL,
 * PHONE_MEMORY. */
phone_status phone_format_by(phone_handle *handle, phone_handle *layouts, uint32_t mode,
                             const phone_number *number, const uint8_t *bytes, size_t bytes_len,
                             uint8_t *out, size_t out_len, size_t *wrote);

/* What is known of a number as a short number of the regions of its calling code. Each but the cost is 1,
 * else 0. */
typedef struct {
    uint32_t cost;               /* PHONE_COST_PREMIUM_RATE, .._UNKNOWN, .._STANDARD_RATE, .._TOLL_FREE: the
                                  * first that it costs in one of them */
    uint8_t is_possible;         /* the count of its digits is possible in one */
    uint8_t is_valid;            /* it is a short number of one */
    uint8_t is_carrier_specific; /* only some carriers connect it in the first whose short number it is */
} phone_facts_anywhere;

/* Tells what is known of a number as a short number, where its region isn't given. `shorts` is a second
 * handle, opened on a database of short numbers. The number's texts are not looked at. PHONE_IS_CLOSED
 * exactly where nothing is open behind one of the handles, else PHONE_BAD_NUMBER as phone_kind has it;
 * PHONE_MEMORY. For each but PHONE_OK `facts` is as it was. */
phone_status phone_short_anywhere(phone_handle *handle, phone_handle *shorts, const phone_number *number,
                                  phone_facts_anywhere *facts);

/* Any cost, of phone_short_example. */
enum { PHONE_COST_ANY = 4 };

/* Writes the example of a region's short numbers of a cost, PHONE_COST_TOLL_FREE .., PHONE_COST_ANY. The
 * handle is one that was opened on a database of short numbers. PHONE_IS_CLOSED exactly where nothing is open,
 * else PHONE_NO_REGION exactly where the region is no region's id, else PHONE_NO_WORD exactly where the cost is
 * above 4, else PHONE_NO_EXAMPLE exactly where the database gives none, as of PHONE_COST_UNKNOWN;
 * PHONE_TOO_SMALL. It takes no memory. */
phone_status phone_short_example(phone_handle *handle, const uint8_t *region, size_t region_len,
                                 uint32_t cost, uint8_t *out, size_t out_len, size_t *wrote);

/* Tells whether a number is an SMS service of a region, a short number that messages are sent to: 1, else
 * 0. `services` is a second handle, opened on a database of these services (data/sms.json is one). The
 * number's texts are not looked at. PHONE_IS_CLOSED exactly where nothing is open behind one of the
 * handles, else PHONE_NO_REGION exactly where the region is no region's id, else PHONE_BAD_NUMBER as
 * phone_kind has it; PHONE_MEMORY. For each but PHONE_OK `told` is as it was. */
phone_status phone_is_sms_service(phone_handle *handle, phone_handle *services, const uint8_t *region,
                                  size_t region_len, const phone_number *number, uint8_t *told);

/* Writes the example of a calling code that serves no region, as 800, as phone_parse writes a number, by
 * libphonenumber's rules, whatever those of the handle. PHONE_IS_CLOSED exactly where nothing is open;
 * PHONE_NO_EXAMPLE only where the code serves a region, isn't listed or has no example; 1 to 6: why the example
 * is no number; PHONE_TOO_SMALL, PHONE_MEMORY. */
phone_status phone_example_of_code(phone_handle *handle, uint16_t code, phone_number *number, uint8_t *out,
                                   size_t out_len, size_t *wrote);

/* Writes a number of a region that isn't valid, as phone_parse writes a number, by the same rules: the
 * first that is parsed of the example of its fixed lines without its last digit, its last two and so on.
 * PHONE_IS_CLOSED exactly where nothing is open, else PHONE_NO_REGION exactly where the region is no
 * region's id; PHONE_NO_EXAMPLE only where there is no such number; PHONE_TOO_SMALL, PHONE_MEMORY. */
phone_status phone_invalid_example(phone_handle *handle, const uint8_t *region, size_t region_len,
                                   phone_number *number, uint8_t *out, size_t out_len, size_t *wrote);

/* Numbers with the letters in which they were written, an example of a kind, and our own answers where
 * libphonenumber's mislead: whatever the rules of the handle. */

/* Writes how a number is dialled from a region with the letters of `raw`, as libphonenumber has it: of that
 * text what follows the place where the number's first three digits stand. Without `raw` it is written as
 * phone_text_from does. Its statuses are those of phone_text_from. */
phone_status phone_text_with_letters(phone_handle *handle, const uint8_t *region, size_t region_len,
                                     const uint8_t *raw, size_t raw_len, const phone_number *number,
                                     const uint8_t *bytes, size_t bytes_len, uint8_t *out, size_t out_len,
                                     size_t *wrote);

/* Writes the same by our own answer: the end of `raw` whose letters and digits are the number's, so that what
 * is dialled reaches it; without three letters, or such an end, as phone_text_from does without `raw`. Its
 * statuses are those of phone_text_from. */
phone_status phone_dialled_with_letters(phone_handle *handle, const uint8_t *region, size_t region_len,
                                        const uint8_t *raw, size_t raw_len, const phone_number *number,
                                        const uint8_t *bytes, size_t bytes_len, uint8_t *out,
                                        size_t out_len, size_t *wrote);

/* Writes the part of a text in which a number may stand: from its first digit or plus sign on, up to a second
 * number, without what can't end a number; no byte where there is none. It needs no database and takes no
 * memory. PHONE_NOT_UTF8 exactly where the text isn't UTF-8; PHONE_TOO_SMALL as phone_report has it. */
phone_status phone_extract(const uint8_t *text, size_t text_len, uint8_t *out, size_t out_len,
                           size_t *wrote);

/* Writes the example of a kind, of the lowest calling code that has one, as phone_parse writes a number, by
 * libphonenumber's rules; of a code that serves no region only where no region has one. PHONE_IS_CLOSED exactly
 * where nothing is open, else PHONE_NO_KIND exactly where the kind is above 16; PHONE_NO_EXAMPLE only where the
 * database gives none; 1 to 6: why the example is no number; PHONE_TOO_SMALL, PHONE_MEMORY. */
phone_status phone_example_of_kind(phone_handle *handle, uint32_t kind, phone_number *number, uint8_t *out,
                                   size_t out_len, size_t *wrote);

/* Writes what a mobile phone dials to reach a number, as phone_mobile_text does: but each region of its calling
 * code is at home for it, as CA for +1 911. PHONE_IS_CLOSED exactly where nothing is open, else PHONE_NOT_UTF8
 * exactly where `id` isn't UTF-8, else PHONE_BAD_NUMBER as phone_format has it; PHONE_TOO_SMALL,
 * PHONE_MEMORY. */
phone_status phone_own_mobile_text(phone_handle *handle, const uint8_t *id, size_t id_len,
                                   uint8_t with_symbols, const phone_number *number, const uint8_t *bytes,
                                   size_t bytes_len, uint8_t *out, size_t out_len, size_t *wrote);

/* Tells whether a number can be dialled from abroad, 1, else 0: a valid one, unless its region says that it is
 * dialled at home alone. Its statuses are those of phone_kind. For each but PHONE_OK `told` is as it was. */
phone_status phone_reaches_from_abroad(phone_handle *handle, const phone_number *number, uint8_t *told);

/* Tells what a number costs as a short number, PHONE_COST_PREMIUM_RATE .., as phone_short_anywhere does: but
 * only in the regions that know it. Its statuses are those of phone_short_anywhere. For each but PHONE_OK `told`
 * is as it was. */
phone_status phone_known_cost(phone_handle *handle, phone_handle *shorts, const phone_number *number,
                              uint32_t *told);

/* Tells what the count of a number's digits says of it as a number of a kind, as phone_possibility_as does: but
 * of a valid number by the lengths of its own region. Its statuses are those of phone_possibility_as. */
phone_status phone_own_possibility(phone_handle *handle, uint32_t kind, const phone_number *number,
                                   uint32_t *told);

/* Tells how like two numbers are, as phone_match_numbers does: but the national number of one is an end of the
 * other's from seven digits on, its leading zeros included. Its statuses are those of phone_match_numbers. */
phone_status phone_own_match_numbers(const phone_number *first, const uint8_t *first_bytes,
                                     size_t first_bytes_len, const phone_number *second,
                                     const uint8_t *second_bytes, size_t second_bytes_len, uint32_t *told);

/* The same of a number and a text, as phone_match_text does; a match is exact as well where the text has the
 * calling code behind an international prefix. Its statuses are those of phone_match_text. */
phone_status phone_own_match_text(phone_handle *handle, const phone_number *number, const uint8_t *bytes,
                                  size_t bytes_len, const uint8_t *text, size_t text_len, uint32_t *told);

/* The same of two texts. Its statuses are those of phone_match_texts. */
phone_status phone_own_match_texts(phone_handle *handle, const uint8_t *first, size_t first_len,
                                   const uint8_t *second, size_t second_len, uint32_t *told);

#ifdef __cplusplus
}
#endif
#endif
