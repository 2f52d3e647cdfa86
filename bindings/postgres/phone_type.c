/* The type `phone`: its text, its binary form, its order. Nothing here asks the table of the world: the
 * calling codes are told apart by their first digits, as ITU-T E.164 assigns them. */
#include "postgres.h"
#include "common/hashfn.h"
#include "fmgr.h"
#include "libpq/pqformat.h"
#include "utils/builtins.h"
#include "phone_type.h"

/* How many digits the calling code has that begins with these two: 1 and 7 are codes; two digits are
 * one where they are listed here, and begin one of three digits else. New codes have three. */
static int code_length(int first, int second) {
    static const char *const SECONDS[10] = {"", "", "07", "0123469", "013456789", "12345678", "0123456", "",
                                            "1246", "0123458"};
    if (first == 1 || first == 7) return 1;
    return strchr(SECONDS[first], '0' + second) ? 2 : 3;
}

/* The calling code's first two digits, 0 for one that isn't there. */
static bool code_is_read(uint16 code) {
    int length = code > 99 ? 3 : code > 9 ? 2 : 1;
    int first = code > 99 ? code / 100 : code > 9 ? code / 10 : code;
    int second = code > 99 ? code / 10 % 10 : code > 9 ? code % 10 : 0;
    if (code == 0 || code > 999) return false;
    return length == code_length(first, second);
}

static int digits_of(uint64 value) {
    int count = 1;
    while (value > 9) value /= 10, count++;
    return count;
}

static int digit_at(const phone_row *row, int place) {
    uint8 two = row->extension[place / 2];
    return place % 2 ? two & 15 : two >> 4;
}

static void put_digit(phone_row *row, int place, int digit) {
    row->extension[place / 2] |= place % 2 ? digit : digit << 4;
}

bool phone_row_is_sound(const phone_row *row) {
    if (!code_is_read(row->code) || row->value >> 56 || row->digits > EXTENSION_DIGITS) return false;
    if (row->zeros + digits_of(row->value) > NATIONAL_DIGITS) return false;
    for (int place = 0; place < EXTENSION_DIGITS; place++)
        if (digit_at(row, place) > (place < row->digits ? 9 : 0)) return false;
    return true;
}

int phone_row_text(const phone_row *row, char out[PHONE_ROW_TEXT]) {
    int len = snprintf(out, PHONE_ROW_TEXT, "+%d", row->code);
    memset(out + len, '0', row->zeros);
    len += row->zeros;
    len += snprintf(out + len, PHONE_ROW_TEXT - len, UINT64_FORMAT, row->value);
    if (row->digits) len += snprintf(out + len, PHONE_ROW_TEXT - len, ";ext=");
    for (int place = 0; place < row->digits; place++) out[len++] = '0' + digit_at(row, place);
    out[len] = 0;
    return len;
}

bool phone_row_of(const phone_number *number, const uint8_t *bytes, phone_row *row) {
    const uint8_t *extension = bytes + number->extension.start;
    size_t digits = number->extension.is_there ? number->extension.len : 0;
    if (digits > EXTENSION_DIGITS) return false;
    memset(row, 0, sizeof *row);
    row->value = number->value;
    row->code = number->code;
    row->zeros = number->zeros;
    row->digits = digits;
    for (size_t place = 0; place < digits; place++) {
        if (extension[place] < '0' || extension[place] > '9') return false;
        put_digit(row, place, extension[place] - '0');
    }
    return phone_row_is_sound(row);
}

void phone_row_number(const phone_row *row, phone_number *number, uint8_t bytes[EXTENSION_DIGITS]) {
    memset(number, 0, sizeof *number);
    number->value = row->value;
    number->code = row->code;
    number->zeros = row->zeros;
    number->source = PHONE_SOURCE_PLUS;
    number->extension.is_there = row->digits > 0;
    number->extension.len = row->digits;
    for (int place = 0; place < row->digits; place++) bytes[place] = '0' + digit_at(row, place);
}

/* The next digit of a text, past the marks that RFC 3966 lets stand between digits; -1 where none is. */
static int next_digit(const char **at) {
    while (**at && strchr("-.()", **at)) (*at)++;
    return **at >= '0' && **at <= '9' ? *(*at)++ - '0' : -1;
}

/* Reads the digits behind a plus sign. False: they are no number. */
static bool read_digits(const char **at, phone_row *row) {
    int first = next_digit(at), second = first < 1 ? -1 : next_digit(at), count = 0, digit;
    int length = second < 0 ? 0 : code_length(first, second);
    bool all_zeros = true;
    if (!length) return false;
    row->code = first;
    if (length > 1) row->code = row->code * 10 + second;
    digit = length == 1 ? second : next_digit(at);
    if (length == 3 && digit >= 0) row->code = row->code * 10 + digit, digit = next_digit(at);
    for (; digit >= 0; digit = next_digit(at)) {
        if (++count > NATIONAL_DIGITS) return false;
        all_zeros = all_zeros && digit == 0;
        row->zeros += all_zeros;
        row->value = row->value * 10 + digit;
    }
    /* Of zeros alone the last one is the value. */
    row->zeros -= all_zeros && count > 0;
    return count > 0;
}

/* Reads `;ext=` and its digits, where they stand there. False: something else does. */
static bool read_extension(const char **at, phone_row *row) {
    int digit;
    if (!**at) return true;
    if (pg_strncasecmp(*at, ";ext=", 5) != 0) return false;
    *at += 5;
    while ((digit = next_digit(at)) >= 0) {
        if (row->digits == EXTENSION_DIGITS) return false;
        put_digit(row, row->digits++, digit);
    }
    return row->digits > 0 && !**at;
}

PG_FUNCTION_INFO_V1(phone_in);
Datum phone_in(PG_FUNCTION_ARGS) {
    const char *text = PG_GETARG_CSTRING(0), *at = text;
    phone_row *row = palloc0(sizeof *row);
    if (pg_strncasecmp(at, "tel:", 4) == 0) at += 4;
    if (*at++ != '+' || !read_digits(&at, row) || !read_extension(&at, row) || !phone_row_is_sound(row))
        ereport(ERROR, (errcode(ERRCODE_INVALID_TEXT_REPRESENTATION),
                        errmsg("invalid input syntax for type %s: \"%s\"", "phone", text),
                        errdetail("A value is an E.164 text, as +6433316005, or one of RFC 3966 with a plus sign."),
                        errhint("phone(text, region) reads numbers as people write them.")));
    PG_RETURN_POINTER(row);
}

PG_FUNCTION_INFO_V1(phone_out);
Datum phone_out(PG_FUNCTION_ARGS) {
    char *text = palloc(PHONE_ROW_TEXT);
    phone_row_text(PG_GETARG_PHONE(0), text);
    PG_RETURN_CSTRING(text);
}

PG_FUNCTION_INFO_V1(phone_recv);
Datum phone_recv(PG_FUNCTION_ARGS) {
    StringInfo given = (StringInfo)PG_GETARG_POINTER(0);
    phone_row *row = palloc0(sizeof *row);
    row->code = pq_getmsgint(given, 2);
    row->zeros = pq_getmsgbyte(given);
    row->digits = pq_getmsgbyte(given);
    row->value = pq_getmsgint64(given);
    pq_copymsgbytes(given, (char *)row->extension, sizeof row->extension);
    if (!phone_row_is_sound(row))
        ereport(ERROR, (errcode(ERRCODE_INVALID_BINARY_REPRESENTATION), errmsg("invalid value of type %s", "phone")));
    PG_RETURN_POINTER(row);
}

PG_FUNCTION_INFO_V1(phone_send);
Datum phone_send(PG_FUNCTION_ARGS) {
    const phone_row *row = PG_GETARG_PHONE(0);
    StringInfoData out;
    pq_begintypsend(&out);
    pq_sendint16(&out, row->code);
    pq_sendint8(&out, row->zeros);
    pq_sendint8(&out, row->digits);
    pq_sendint64(&out, row->value);
    pq_sendbytes(&out, (const char *)row->extension, sizeof row->extension);
    PG_RETURN_BYTEA_P(pq_endtypsend(&out));
}

/* By calling code, then by the national number's digits as text, then by the extension's. */
static int row_order(const phone_row *left, const phone_row *right) {
    char mine[PHONE_ROW_TEXT], other[PHONE_ROW_TEXT];
    if (left->code != right->code) return left->code < right->code ? -1 : 1;
    if (memcmp(left, right, sizeof *left) == 0) return 0;
    phone_row_text(left, mine);
    phone_row_text(right, other);
    /* A text's end and its `;` come before and behind any digit: both end the national number. */
    for (char *at = mine; *at; at++) if (*at == ';') *at = 1;
    for (char *at = other; *at; at++) if (*at == ';') *at = 1;
    return strcmp(mine, other);
}

#define ORDERED(name, test)                                                     \
    PG_FUNCTION_INFO_V1(name);                                                  \
    Datum name(PG_FUNCTION_ARGS) {                                              \
        int order = row_order(PG_GETARG_PHONE(0), PG_GETARG_PHONE(1));          \
        PG_RETURN_BOOL(order test 0);                                           \
    }
ORDERED(phone_lt, <)
ORDERED(phone_le, <=)
ORDERED(phone_eq, ==)
ORDERED(phone_ne, !=)
ORDERED(phone_ge, >=)
ORDERED(phone_gt, >)

PG_FUNCTION_INFO_V1(phone_cmp);
Datum phone_cmp(PG_FUNCTION_ARGS) { PG_RETURN_INT32(row_order(PG_GETARG_PHONE(0), PG_GETARG_PHONE(1))); }

PG_FUNCTION_INFO_V1(phone_hash);
Datum phone_hash(PG_FUNCTION_ARGS) {
    return hash_any((const unsigned char *)PG_GETARG_PHONE(0), sizeof(phone_row));
}

PG_FUNCTION_INFO_V1(phone_hash_extended);
Datum phone_hash_extended(PG_FUNCTION_ARGS) {
    return hash_any_extended((const unsigned char *)PG_GETARG_PHONE(0), sizeof(phone_row), PG_GETARG_INT64(1));
}

PG_FUNCTION_INFO_V1(phone_calling_code);
Datum phone_calling_code(PG_FUNCTION_ARGS) { PG_RETURN_INT32(PG_GETARG_PHONE(0)->code); }

PG_FUNCTION_INFO_V1(phone_national_number);
Datum phone_national_number(PG_FUNCTION_ARGS) {
    const phone_row *row = PG_GETARG_PHONE(0);
    char text[PHONE_ROW_TEXT];
    memset(text, '0', row->zeros);
    snprintf(text + row->zeros, sizeof text - row->zeros, UINT64_FORMAT, row->value);
    PG_RETURN_TEXT_P(cstring_to_text(text));
}

PG_FUNCTION_INFO_V1(phone_extension);
Datum phone_extension(PG_FUNCTION_ARGS) {
    const phone_row *row = PG_GETARG_PHONE(0);
    phone_number number;
    uint8_t bytes[EXTENSION_DIGITS];
    if (!row->digits) PG_RETURN_NULL();
    phone_row_number(row, &number, bytes);
    PG_RETURN_TEXT_P(cstring_to_text_with_len((char *)bytes, row->digits));
}
