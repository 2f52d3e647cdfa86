/* What the SQL functions of SQLite, PostgreSQL and DuckDB share: how a question about a text is answered. A
 * text is read and a number described by libphonenumber's rules. The file that includes this one defines
 * first what sql_table.h asks for, and SQL_QUESTIONS_ALONE where it finds numbers in texts by itself. */
#ifndef SQL_COMMON_H
#define SQL_COMMON_H
#include "sql_table.h"
#include <string.h>

/* What is asked of a text. SQL_REFUSAL has words where any other has nothing, for a refusal, and
 * nothing where it is a number; a number without a region has nothing as its region. SQL_POSSIBILITY has
 * a word also where a text is refused for its length or its calling code. */
typedef enum {
    SQL_E164, SQL_FORMAT, SQL_TYPE, SQL_REGION, SQL_IS_VALID, SQL_REFUSAL, SQL_CODE, SQL_NATIONAL, SQL_POSSIBILITY,
    SQL_IS_VALID_FOR, SQL_AREA_LENGTH, SQL_MATCH
} sql_question;

/* A question. `mode` is absent where `at` is NULL; SQL_FORMAT has one, and SQL_REFUSAL has one where
 * it asks why SQL_FORMAT has nothing. Of SQL_IS_VALID_FOR it is the id of a territory. */
typedef struct {
    sql_question question;
    sql_text text, region, mode;
} sql_call;

/* Bytes that a call of the library writes: in `few` while they are few. All of them are zero first. */
typedef struct {
    uint8_t few[256];
    uint8_t *many;
    size_t room, len;
} sql_bytes;

/* An answer. A text stands in `bytes` or is a constant. SQL_NO_MEMORY says nothing of the text. */
typedef enum { SQL_NOTHING, SQL_TEXT, SQL_TRUTH, SQL_NUMBER, SQL_NO_MEMORY } sql_kind;
typedef struct {
    sql_kind kind;
    sql_text text;
    int truth, number;
    sql_bytes bytes;
} sql_answer;

static void sql_begin(sql_bytes *bytes) {
    memset(bytes, 0, sizeof *bytes);
    bytes->room = sizeof bytes->few;
}
static uint8_t *sql_at(sql_bytes *bytes) { return bytes->many ? bytes->many : bytes->few; }

/* Makes room for `len` bytes where `status` says that there was too little. 0: there is nothing to be
 * done again, and `status` is PHONE_MEMORY where room was refused. */
static int sql_again(sql_bytes *bytes, phone_status *status) {
    if (*status != PHONE_TOO_SMALL) return 0;
    sql_forget(bytes->many);
    bytes->many = sql_memory(bytes->len);
    bytes->room = bytes->many ? bytes->len : sizeof bytes->few;
    if (!bytes->many) *status = PHONE_MEMORY;
    return bytes->many != NULL;
}

/* Reads the text of a call as a number, whose own texts go to `texts`. */
static phone_status sql_parse(phone_handle *world, const sql_call *call, phone_number *number,
                              sql_bytes *texts) {
    const uint8_t *text = phone_text(call->text.at, call->text.len);
    const uint8_t *region = phone_text(call->region.at, call->region.len);
    phone_status status;
    do status = phone_parse(world, region, call->region.len, text, call->text.len, number, sql_at(texts),
                            texts->room, &texts->len);
    while (sql_again(texts, &status));
    return status;
}

/* Prints a number, whose texts stand in these bytes, in a mode to the bytes of the answer. */
static phone_status sql_print(phone_handle *world, const phone_number *number, const uint8_t *texts,
                              size_t texts_len, uint32_t mode, sql_answer *answer) {
    sql_bytes *out = &answer->bytes;
    phone_status status;
    do status = phone_format(world, number, texts, texts_len, mode, sql_at(out), out->room, &out->len);
    while (sql_again(out, &status));
    return status;
}

/* The digits of a national number, with its leading zeros, of which there may be 255. 0: there was no room. */
static int sql_national(const phone_number *number, sql_bytes *out) {
    char value[24];
    size_t len = (size_t)snprintf(value, sizeof value, "%llu", (unsigned long long)number->value);
    phone_status status = PHONE_TOO_SMALL;
    out->len = number->zeros + len;
    if (out->len > out->room && !sql_again(out, &status)) return 0;
    memset(sql_at(out), '0', number->zeros);
    memcpy(sql_at(out) + number->zeros, value, len);
    return 1;
}

/* Answers what one of the further questions asks of a number. */
static phone_status sql_further(phone_handle *world, const sql_call *call, const phone_number *number, sql_answer *answer) {
    sql_bytes *out = &answer->bytes;
    phone_number_facts facts = {0, 0, 0, 0};
    uint32_t told = 0;
    uint8_t truth = 0;
    phone_status status = PHONE_OK;
    switch (call->question) {
    case SQL_NATIONAL:
        if (!sql_national(number, out)) status = PHONE_MEMORY;
        break;
    case SQL_POSSIBILITY: /* of a value; of a text, sql_possibility */
        status = phone_possibility(world, number, &told);
        if (status == PHONE_OK)
            status = phone_word(PHONE_POSSIBILITY_WORDS, told, sql_at(out), out->room, &out->len);
        break;
    case SQL_IS_VALID_FOR:
        status = phone_is_valid_for(world, phone_text(call->mode.at, call->mode.len), call->mode.len, number, &truth);
        answer->kind = SQL_TRUTH;
        answer->truth = truth != 0;
        break;
    case SQL_AREA_LENGTH:
        status = phone_about_number(world, number, &facts);
        answer->kind = SQL_NUMBER;
        answer->number = (int)facts.area_length;
        break;
    default:
        answer->kind = SQL_NUMBER;
        answer->number = number->code;
        break;
    }
    return status;
}

/* Answers what is asked of a number, whose texts stand in these bytes. */
static phone_status sql_describe(phone_handle *world, const sql_call *call, const phone_number *number,
                                 const uint8_t *texts, size_t texts_len, uint32_t mode,
                                 sql_answer *answer) {
    sql_bytes *out = &answer->bytes;
    uint8_t truth = 0;
    uint32_t kind = PHONE_KIND_UNKNOWN;
    phone_status status = PHONE_OK;
    answer->kind = SQL_TEXT;
    switch (call->question) {
    case SQL_E164:
        do status = phone_key(number, sql_at(out), out->room, &out->len);
        while (sql_again(out, &status));
        break;
    case SQL_FORMAT:
        status = sql_print(world, number, texts, texts_len, mode, answer);
        break;
    case SQL_TYPE:
        status = phone_kind(world, number, &kind);
        if (status == PHONE_OK) status = phone_word(PHONE_KIND_WORDS, kind, sql_at(out), out->room, &out->len);
        break;
    case SQL_REGION:
        do status = phone_region(world, number, sql_at(out), out->room, &out->len);
        while (sql_again(out, &status));
        if (!out->len) answer->kind = SQL_NOTHING;
        break;
    case SQL_IS_VALID:
        status = phone_is_valid(world, number, &truth);
        answer->kind = SQL_TRUTH;
        answer->truth = truth != 0;
        break;
    case SQL_REFUSAL:
        if (call->mode.at) status = sql_print(world, number, texts, texts_len, mode, answer);
        answer->kind = SQL_NOTHING;
        break;
    default:
        status = sql_further(world, call, number, answer);
        break;
    }
    answer->text = (sql_text){(const char *)sql_at(out), out->len};
    return status;
}

/* Answers what is asked of a number that is there, unless `status` says why it isn't. sql_end gives back
 * what the answer holds. */
static void sql_tell(phone_handle *world, const sql_call *call, phone_status status,
                     const phone_number *number, const uint8_t *texts, size_t texts_len,
                     sql_answer *answer) {
    sql_bytes *out = &answer->bytes;
    uint32_t mode = PHONE_MODE_E164;
    int has_mode = call->mode.at && call->question != SQL_IS_VALID_FOR;
    sql_begin(out);
    if (status == PHONE_OK && has_mode && !sql_mode(call->mode, &mode)) status = PHONE_NO_MODE;
    if (status == PHONE_OK) status = sql_describe(world, call, number, texts, texts_len, mode, answer);
    if (status == PHONE_MEMORY) answer->kind = SQL_NO_MEMORY;
    else if (status != PHONE_OK) {
        int has_words = call->question == SQL_REFUSAL &&
                        phone_status_words(status, sql_at(out), out->room, &out->len) == PHONE_OK;
        answer->kind = has_words ? SQL_TEXT : SQL_NOTHING;
        answer->text = (sql_text){(const char *)sql_at(out), out->len};
    }
}

/* Answers with the word of what the count of a text's digits says, also of one that is refused for it. */
static void sql_possibility(phone_handle *world, const sql_call *call, sql_answer *answer) {
    const uint8_t *text = phone_text(call->text.at, call->text.len);
    const uint8_t *region = phone_text(call->region.at, call->region.len);
    sql_bytes *out = &answer->bytes;
    uint32_t told = 0;
    phone_status status = phone_text_possibility(world, region, call->region.len, text, call->text.len, &told);
    sql_begin(out);
    if (status == PHONE_OK) status = phone_word(PHONE_POSSIBILITY_WORDS, told, sql_at(out), out->room, &out->len);
    answer->kind = status == PHONE_OK ? SQL_TEXT : status == PHONE_MEMORY ? SQL_NO_MEMORY : SQL_NOTHING;
    answer->text = (sql_text){(const char *)sql_at(out), out->len};
}

/* Answers with how like the numbers of two texts are, each perhaps without its calling code: the second
 * stands as the region of the call. Nothing for bytes that aren't UTF-8. */
static void sql_match(phone_handle *world, const sql_call *call, sql_answer *answer) {
    static const char *const WORDS[] = {"NotANumber", "NoMatch", "ShortNsnMatch", "NsnMatch", "ExactMatch"};
    const uint8_t *first = phone_text(call->text.at, call->text.len);
    const uint8_t *second = phone_text(call->region.at, call->region.len);
    uint32_t told = 0;
    phone_status status = phone_own_match_texts(world, first, call->text.len, second, call->region.len, &told);
    sql_begin(&answer->bytes);
    answer->kind = status == PHONE_OK ? SQL_TEXT : status == PHONE_MEMORY ? SQL_NO_MEMORY : SQL_NOTHING;
    answer->text = (sql_text){WORDS[told], strlen(WORDS[told])};
}

/* Answers a call under an open table. sql_end gives back what the answer holds. */
static void sql_ask(phone_handle *world, const sql_call *call, sql_answer *answer) {
    phone_number number;
    sql_bytes texts;
    phone_status status;
    if (call->question == SQL_POSSIBILITY) {
        sql_possibility(world, call, answer);
        return;
    }
    if (call->question == SQL_MATCH) {
        sql_match(world, call, answer);
        return;
    }
    memset(&number, 0, sizeof number);
    sql_begin(&texts);
    status = sql_parse(world, call, &number, &texts);
    sql_tell(world, call, status, &number, sql_at(&texts), texts.len, answer);
    sql_forget(texts.many);
}
static void sql_end(sql_answer *answer) { sql_forget(answer->bytes.many); }

#ifndef SQL_QUESTIONS_ALONE
/* Where the valid numbers of a call's text stand, in bytes: so many places, which sql_forget gives back. */
static phone_status sql_places(phone_handle *world, const sql_call *call, phone_place **places, size_t *count) {
    const uint8_t *text = phone_text(call->text.at, call->text.len);
    const uint8_t *region = phone_text(call->region.at, call->region.len);
    phone_status status = PHONE_TOO_SMALL;
    *places = NULL;
    for (*count = 8; status == PHONE_TOO_SMALL;) {
        size_t room = *count, size = room * sizeof **places;
        sql_forget(*places);
        *places = sql_memory(size);
        if (!*places) return PHONE_MEMORY;
        status = phone_find(world, region, call->region.len, PHONE_IF_VALID, text, call->text.len, *places, room, count);
    }
    return status;
}

/* How many characters a text in UTF-8 has. */
static size_t sql_characters(const char *text, size_t len) {
    size_t count = 0;
    for (size_t at = 0; at < len; at++) count += (text[at] & 0xC0) != 0x80;
    return count;
}

/* The columns of phone_parts, in their order, but for the last, the refusal. */
static const struct { const char *name; sql_question question; const char *mode; } SQL_PARTS[] = {
    {"e164", SQL_E164, NULL},
    {"international", SQL_FORMAT, "international"},
    {"national", SQL_FORMAT, "national"},
    {"rfc3966", SQL_FORMAT, "rfc3966"},
    {"type", SQL_TYPE, NULL},
    {"number_region", SQL_REGION, NULL},
    {"is_valid", SQL_IS_VALID, NULL}};
enum { SQL_PARTS_COUNT = sizeof SQL_PARTS / sizeof *SQL_PARTS };

/* What one of these columns tells of a number, or the refusal that `status` is, behind them. sql_end
 * gives back what the answer holds. */
static void sql_part(phone_handle *world, int part, phone_status status, const phone_number *number,
                     const uint8_t *texts, size_t texts_len, sql_answer *answer) {
    sql_call call = {SQL_REFUSAL, {0}, {0}, {0}};
    if (part < SQL_PARTS_COUNT) {
        const char *mode = SQL_PARTS[part].mode;
        call.question = SQL_PARTS[part].question;
        if (mode) call.mode = (sql_text){mode, strlen(mode)};
    }
    sql_tell(world, &call, status, number, texts, texts_len, answer);
}
#endif
#endif
