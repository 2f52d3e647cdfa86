/* Callers that are careless or hostile within what phone.h lets them do, and each request for memory refused in turn:
 * hostile TABLE [ROUNDS]. The last line is `hostile: ok`; else the number of the first check that failed is printed. It is
 * linked with --wrap, so that requests of the kit's heap come here: the blocks that it holds are counted, and a handle that
 * is closed has left none. */
#include "phone.h"
#include <stdio.h>
#include <stdlib.h>
#include <string.h>
#define B(s) (const uint8_t *)(s), (sizeof(s) - 1)
#define CHECK(n, is) do { if (!(is)) { printf("hostile: %d\n", n); return n; } } while (0)

void *__real_malloc(size_t n);
void *__real_realloc(void *p, size_t n);
void __real_free(void *p);
static long refuse_at = -1, requests; /* the request that is refused, counted from 0; none where below 0 */
static long blocks;                   /* that the library holds */
void *__wrap_malloc(size_t n) {
    void *p = requests++ == refuse_at ? NULL : __real_malloc(n);
    return blocks += p != NULL, p;
}
void *__wrap_realloc(void *p, size_t n) {
    void *to = requests++ == refuse_at ? NULL : __real_realloc(p, n);
    return blocks += !p && to, to;
}
void __wrap_free(void *p) { blocks -= p != NULL, __real_free(p); }

static const char SMALL[] = "[{\"id\": \"001\", \"country_code\": 999,"
    "\"general\": {\"national_number\": \"[1-9]\\\\d\\\\d\", \"possible_length\": [3]}}]";
/* Short numbers of one region, and a table of prefixes. */
static const char SHORT[] = "[{\"id\": \"NZ\", \"country_code\": 64,"
    "\"general\": {\"national_number\": \"1\\\\d\\\\d\", \"possible_length\": [3]},"
    "\"emergency\": {\"national_number\": \"111\", \"possible_length\": [3]},"
    "\"short_code\": {\"national_number\": \"1\\\\d\\\\d\", \"possible_length\": [3], \"example\": \"111\"}}]";
/* Layouts of a caller's own. */
static const char LAYOUTS[] = "[{\"id\": \"001\", \"country_code\": 1, \"general\": {\"national_number\": \"1\"},"
    "\"formats\": [{\"pattern\": \"(\\\\d)(\\\\d+)\", \"format\": \"$1-$2\"}]}]";
static const char PREFIXES[] = "64\tNew Zealand\r\n643\tSouth Island\n1\t";
/* One region, with an example. */
static const char REGION[] = "[{\"id\": \"NZ\", \"country_code\": 64, \"international_prefix\": \"00\","
    "\"general\": {\"national_number\": \"[1-9]\\\\d{6}\", \"possible_length\": [7]},"
    "\"mobile\": {\"national_number\": \"[1-9]\\\\d{6}\", \"possible_length\": [7], \"example\": \"2345678\"}}]";
static _Alignas(16) uint8_t out[4096];
static size_t wrote;
static phone_number number;

static void fill(void) { memset(out, 0xAA, sizeof out), wrote = 99; }
static int is_untouched(size_t from) {
    for (size_t i = from; i < sizeof out; i++) if (out[i] != 0xAA) return 0;
    return 1;
}
static phone_status report(phone_handle *h, const char *hint, const void *line, size_t len, size_t room) {
    fill();
    return phone_report(h, phone_text(hint, strlen(hint)), strlen(hint), phone_text(line, len), len, out, room, &wrote);
}
static phone_status parse(phone_handle *h, const char *hint, const void *text, size_t len, size_t room) {
    fill();
    memset(&number, 0x55, sizeof number);
    return phone_parse(h, phone_text(hint, strlen(hint)), strlen(hint), phone_text(text, len), len, &number, out, room, &wrote);
}
static phone_status shown(phone_handle *h, const char *hint, const void *keys, size_t len, size_t room) {
    fill();
    return phone_typing_shown(h, phone_text(hint, strlen(hint)), strlen(hint), phone_text(keys, len), len, out, room, &wrote);
}
static phone_status caret(phone_handle *h, const char *keys, size_t n, size_t *told) {
    return phone_typing_caret(h, phone_text("", 0), 0, phone_text(keys, strlen(keys)), strlen(keys), n, told);
}
/* All columns of four rows: a number, none, what is no number, what is no UTF-8. Where they aren't written, places are as they were. */
static const uint32_t COLUMNS[] = {0, 1, 2, 3, 4, 5, 6, 7, 8, 9, 10, 11, 12};
static const uint32_t ENDS[] = {0, 22, 22, 29, 30};
static const uint64_t WIDE[] = {0, 22, 22, 29, 30};
static const char FOUR[] = "+64 3 331 6005 ext. 12call me\xff";
static const uint8_t BITS[] = {0x0D};
enum { PLACES = 17 };
static phone_place places[PLACES];
static phone_status written(phone_status status) {
    for (size_t i = 0; status && i < sizeof places; i++) if (((uint8_t *)places)[i] != 0xAA) return 97;
    return status;
}
static phone_status columns(phone_handle *h, size_t room) {
    phone_texts texts = phone_texts_of(WIDE, 4, FOUR, BITS, 0), hint = phone_one_hint("NZ", 2);
    memset(places, 0xAA, sizeof places);
    return written(phone_columns(h, &texts, &hint, COLUMNS, 13, places, PLACES, out, room, &wrote));
}
static phone_status narrow_columns(phone_handle *h, size_t room) {
    phone_narrow_texts texts = phone_narrow_texts_of(ENDS, 4, FOUR, BITS, 0), hint = phone_narrow_one_hint("NZ", 2);
    memset(places, 0xAA, sizeof places);
    return written(phone_narrow_columns(h, &texts, &hint, COLUMNS, 13, places, PLACES, out, room, &wrote));
}
/* The calls, by a number, each on the same text; those up to ROOMS write to a buffer. Some are asked by the rules of
 * libphonenumber, behind a second handle on the table. */
static phone_handle second = PHONE_CLOSED, own_layouts = PHONE_CLOSED, own_shorts = PHONE_CLOSED;
enum { ROOMS = 38, CALLS = 64 };
static phone_status call(int which, phone_handle *h, const phone_number *n, const uint8_t *bytes, size_t len, size_t room) {
    const char *text = "+64 3 331 6005 ext. 12";
    phone_status status, kind = 99;
    uint8_t flag = 99;
    size_t place = 99;
    phone_number longer = *n;
    phone_region_facts region = {99, 99, 99};
    phone_number_facts facts = {99, 99, 99, 99};
    phone_facts_anywhere anywhere = {99, 99, 99, 99};
    fill();
    switch (which) {
    case 0: return report(h, "NZ", text, strlen(text), room);
    case 1: return parse(h, "NZ", text, strlen(text), room);
    case 2: return phone_format(h, n, bytes, len, PHONE_MODE_E164, out, room, &wrote);
    case 3: return phone_format(h, n, bytes, len, PHONE_MODE_RFC3966, out, room, &wrote);
    case 4: return phone_region(h, n, out, room, &wrote);
    case 5: return phone_key(n, out, room, &wrote);
    case 6: return phone_report(&second, B("NZ"), (const uint8_t *)text, strlen(text), out, room, &wrote);
    case 7: return phone_parse(&second, B("NZ"), (const uint8_t *)text, strlen(text), &number, out, room, &wrote);
    case 8: return phone_format(&second, n, bytes, len, PHONE_MODE_NATIONAL, out, room, &wrote);
    case 9: return phone_region(&second, n, out, room, &wrote);
    case 10: return shown(h, "NZ", "033316005", 9, room);
    case 11: return phone_dialled_from(h, B("DE"), n, bytes, len, out, room, &wrote);
    case 12: return phone_example(&second, B("NZ"), PHONE_KIND_MOBILE, &number, out, room, &wrote);
    case 13: return phone_regions(h, out, room, &wrote);
    case 14: return status = phone_codes(h, (uint16_t *)out, room / 2, &wrote), wrote *= 2, status;
    case 15:
        status = phone_find(&second, B("NZ"), PHONE_IF_VALID, B("or 03-331 6005, or +1 650 253 0000"),
                               (phone_place *)out, room / sizeof(phone_place), &wrote);
        return wrote *= sizeof(phone_place), status;
    case 16: return columns(h, room);
    case 17: return narrow_columns(&second, room);
    case 18: return phone_national_prefix(h, B("NZ"), 1, out, room, &wrote);
    case 19: return status = phone_region_kinds(h, B("NZ"), (uint32_t *)out, room / 4, &wrote), wrote *= 4, status;
    case 20: return phone_main_region(h, 64, out, room, &wrote);
    case 21: return status = phone_code_kinds(h, 870, (uint32_t *)out, room / 4, &wrote), wrote *= 4, status;
    case 22: return phone_mobile_token(54, out, room, &wrote);
    case 23: return phone_national_with(h, n, bytes, len, B("15"), 0, out, room, &wrote);
    case 24: return phone_normalize(PHONE_FORM_KEYS, B("1-800-FLOWERS"), out, room, &wrote);
    case 25: return phone_format_read(h, PHONE_MODE_NATIONAL, (const uint8_t *)text, strlen(text), n, bytes, len, out, room, &wrote);
    case 26: return phone_mobile_text(h, B("NZ"), 0, (const uint8_t *)text, strlen(text), n, bytes, len, out, room, &wrote);
    case 27: return phone_text_from(h, B("DE"), (const uint8_t *)text, strlen(text), n, bytes, len, out, room, &wrote);
    case 28: return phone_original_text(h, B("NZ"), B("03-331 6005 ext. 12"), n, bytes, len, out, room, &wrote);
    case 29: return phone_format_by(h, &own_layouts, PHONE_MODE_RFC3966, n, bytes, len, out, room, &wrote);
    case 30: return phone_short_example(&own_shorts, B("NZ"), PHONE_COST_ANY, out, room, &wrote);
    case 31: return phone_example_of_code(h, 800, &number, out, room, &wrote);
    case 32: return phone_invalid_example(h, B("NZ"), &number, out, room, &wrote);
    case 33: return phone_text_with_letters(h, B("DE"), B("03-331 600J"), n, bytes, len, out, room, &wrote);
    case 34: return phone_dialled_with_letters(h, B("DE"), B("0DDD-16005"), n, bytes, len, out, room, &wrote);
    case 35: return phone_extract((const uint8_t *)text, strlen(text), out, room, &wrote);
    case 36: return phone_example_of_kind(h, PHONE_KIND_PAGER, &number, out, room, &wrote);
    case 37: return phone_own_mobile_text(h, B("NZ"), 1, n, bytes, len, out, room, &wrote);
    case 38: return status = phone_kind(h, n, &kind), kind == (status ? 99 : PHONE_KIND_FIXED_LINE) ? status : 98;
    case 39: return status = phone_kind(&second, n, &kind), kind == (status ? 99 : PHONE_KIND_FIXED_LINE) ? status : 98;
    case 40: return status = phone_is_valid(&second, n, &flag), flag == (status ? 99 : 1) ? status : 98;
    case 41: return status = caret(h, "+6433316005", 4, &place), place == (status ? 99 : 5) ? status : 98;
    case 42: return status = phone_possibility(&second, n, &kind), kind == (status ? 99 : PHONE_LENGTH_POSSIBLE) ? status : 98;
    case 43:
        status = phone_text_possibility(h, B("NZ"), B("03-33"), &kind);
        return kind == (status ? 99 : PHONE_LENGTH_TOO_SHORT) ? status : 98;
    case 44:
        status = phone_compare(&second, B("331 6005"), (const uint8_t *)text, strlen(text), &kind);
        return kind == (status ? 99 : PHONE_MATCH_END) ? status : 98;
    case 45:
        status = phone_about_number(h, n, &facts);
        return facts.destination_length == (status ? 99 : 1) ? status : 98;
    case 46: return status = phone_is_valid_for(h, B("NZ"), n, &flag), flag == (status ? 99 : 1) ? status : 98;
    case 47:
        status = phone_possibility_as(h, PHONE_KIND_MOBILE, n, &kind);
        return kind == (status ? 99 : PHONE_LENGTH_POSSIBLE) ? status : 98;
    case 48:
        longer.value = longer.value * 10 + 9;
        status = phone_truncate(h, &longer, &flag);
        return longer.value == (status ? n->value * 10 + 9 : n->value) && flag == (status ? 99 : 1) ? status : 98;
    case 49:
        status = phone_match_numbers(n, bytes, len, n, bytes, len, &kind);
        return kind == (status ? 99 : PHONE_EXACT_MATCH) ? status : 98;
    case 50:
        status = phone_match_text(h, n, bytes, len, B("03-331 6005"), &kind);
        return kind == (status ? 99 : PHONE_SHORT_NSN_MATCH) ? status : 98;
    case 51:
        status = phone_match_texts(&second, B("331 6005"), (const uint8_t *)text, strlen(text), &kind);
        return kind == (status ? 99 : PHONE_SHORT_NSN_MATCH) ? status : 98;
    case 52: return status = phone_about_region(h, B("NZ"), &region), region.code == (status ? 99 : 64) ? status : 98;
    case 53: return status = phone_is_geographical(PHONE_KIND_MOBILE, 54, &flag), flag == (status ? 99 : 1) ? status : 98;
    case 54: return status = phone_has_letters(B("1-800-FLOWERS"), &flag), flag == (status ? 99 : 1) ? status : 98;
    case 55:
        status = phone_short_anywhere(h, &own_shorts, n, &anywhere);
        return anywhere.cost == (status ? 99 : PHONE_COST_UNKNOWN) ? status : 98;
    case 56:
        status = phone_is_sms_service(h, &own_shorts, B("NZ"), n, &flag);
        return flag == (status ? 99 : 0) ? status : 98;
    case 57: return status = phone_reaches_from_abroad(h, n, &flag), flag == (status ? 99 : 1) ? status : 98;
    case 58:
        status = phone_known_cost(h, &own_shorts, n, &kind);
        return kind == (status ? 99 : PHONE_COST_UNKNOWN) ? status : 98;
    case 59:
        status = phone_own_possibility(h, PHONE_KIND_MOBILE, n, &kind);
        return kind == (status ? 99 : PHONE_LENGTH_POSSIBLE) ? status : 98;
    case 60:
        status = phone_own_match_numbers(n, bytes, len, n, bytes, len, &kind);
        return kind == (status ? 99 : PHONE_EXACT_MATCH) ? status : 98;
    case 61:
        status = phone_own_match_text(h, n, bytes, len, B("03-331 6005"), &kind);
        return kind == (status ? 99 : PHONE_SHORT_NSN_MATCH) ? status : 98;
    case 62:
        status = phone_own_match_texts(&second, B("331 6005"), (const uint8_t *)text, strlen(text), &kind);
        return kind == (status ? 99 : PHONE_SHORT_NSN_MATCH) ? status : 98;
    default: return status = phone_is_valid(h, n, &flag), flag == (status ? 99 : 1) ? status : 98;
    }
}
static int every_room(phone_handle *h, const phone_number *n, const uint8_t *bytes, size_t bytes_len) {
    for (int which = 0; which < ROOMS; which++) {
        uint8_t whole[4096];
        size_t len, room;
        CHECK(1200 + which, call(which, h, n, bytes, bytes_len, sizeof out) == PHONE_OK && is_untouched(wrote));
        memcpy(whole, out, len = wrote);
        for (room = 0; room < len; room++)
            CHECK(1300 + which, call(which, h, n, bytes, bytes_len, room) == PHONE_TOO_SMALL && wrote == len && is_untouched(0));
        CHECK(1400 + which, call(which, h, n, bytes, bytes_len, len) == PHONE_OK && wrote == len && !memcmp(out, whole, len)
            && is_untouched(len));
    }
    return 0;
}
/* Each request of a call refused in turn: want of memory is told or the answer is right, and the next call is right. */
static int refused(phone_handle *h, const phone_number *n, const uint8_t *bytes, size_t bytes_len, long *most) {
    for (int which = 0; which < CALLS; which++) {
        uint8_t whole[4096];
        size_t len;
        call(which, h, n, bytes, bytes_len, sizeof out);
        memcpy(whole, out, sizeof out), len = wrote;
        for (long k = 0;; k++) {
            requests = 0, refuse_at = k;
            phone_status status = call(which, h, n, bytes, bytes_len, sizeof out);
            refuse_at = -1;
            int met = requests > k;
            CHECK(1500 + which, (status == PHONE_OK && !memcmp(out, whole, sizeof out) && wrote == len)
                || (met && status == PHONE_MEMORY && is_untouched(0)));
            CHECK(1600 + which, h->at && call(which, h, n, bytes, bytes_len, sizeof out) == PHONE_OK
                && !memcmp(out, whole, sizeof out) && wrote == len);
            if (!met) { if (k > *most) *most = k; break; }
        }
    }
    return 0;
}
static int small(void) {
    phone_handle h = PHONE_CLOSED, other = PHONE_CLOSED;
    uint8_t flag = 9;
    phone_close(&h);
    CHECK(1, report(&h, "NZ", "1", 1, 10) == PHONE_IS_CLOSED && wrote == 0 && is_untouched(0));
    CHECK(2, phone_open(B("\xff"), PHONE_CRATE, &h) == PHONE_NOT_UTF8 && !h.at);
    CHECK(3, phone_open(phone_text(NULL, 0), 0, PHONE_CRATE, &h) == PHONE_MALFORMED_JSON && !h.at);
    CHECK(4, phone_open(B("[{\"id\": \"NZ\"}]"), PHONE_CRATE, &h) == PHONE_MISSING_VALUE && !h.at);
    CHECK(5, phone_open(B(SMALL), PHONE_CRATE, &h) == PHONE_OK && h.at);
    CHECK(6, phone_open(B("[]"), PHONE_CRATE, &other) == PHONE_OK && other.at != h.at);
    CHECK(7, report(&h, "", "+999 234", 8, sizeof out) == PHONE_OK && !memcmp(out, "ok\t+999234\t", 11));
    CHECK(8, report(&other, "", "+999 234", 8, sizeof out) == PHONE_OK && !memcmp(out, "error\t2\t", 8));
    CHECK(9, report(&h, "xx", "+999 234", 8, sizeof out) == PHONE_NO_REGION && wrote == 0 && is_untouched(0));
    CHECK(10, report(&h, "\xff\xff", "1", 1, sizeof out) == PHONE_NO_REGION);
    CHECK(11, report(&h, "", NULL, 0, sizeof out) == PHONE_OK && !memcmp(out, "error\t1\t", 8));
    CHECK(12, report(&h, "", "\xff", 1, sizeof out) == PHONE_OK && !memcmp(out, "error\t0\tnot UTF-8", 17));
    CHECK(13, report(&h, "", "\0+999\0 234", 10, sizeof out) == PHONE_OK);
    CHECK(14, parse(&h, "", "\xff", 1, sizeof out) == PHONE_NOT_UTF8 && wrote == 0 && is_untouched(0) && number.zeros == 0x55);
    CHECK(15, parse(&h, "", "call me", 7, sizeof out) == PHONE_NO_NUMBER && number.zeros == 0x55);
    CHECK(16, parse(&h, "", "+999 234 ext. 567", 17, 2) == PHONE_TOO_SMALL && wrote == 3 && number.zeros == 0x55);
    CHECK(17, parse(&h, "", "+999 234 ext. 567", 17, 3) == PHONE_OK && number.value == 234 && number.code == 999
        && number.source == PHONE_SOURCE_PLUS && number.zeros == 0 && number.extension.is_there && number.extension.start == 0
        && number.extension.len == 3 && !number.carrier.is_there && !memcmp(out, "567", 3));
    phone_number bad = number;
    CHECK(18, (bad.source = 4, phone_key(&bad, out, 9, &wrote)) == PHONE_BAD_NUMBER);
    CHECK(19, (bad = number, bad.value = 1ull << 56, phone_key(&bad, out, 9, &wrote)) == PHONE_BAD_NUMBER);
    CHECK(20, (bad = number, bad.extension.start = SIZE_MAX, phone_format(&h, &bad, B("567"), 0, out, 99, &wrote)) == PHONE_BAD_NUMBER);
    CHECK(21, (bad.extension.start = 1, phone_format(&h, &bad, B("567"), 0, out, 99, &wrote)) == PHONE_BAD_NUMBER);
    CHECK(22, (bad.extension.start = 0, phone_format(&h, &bad, B("\xff""67"), 0, out, 99, &wrote)) == PHONE_BAD_NUMBER);
    CHECK(23, phone_format(&h, &number, B("567"), 4, out, 99, &wrote) == PHONE_NO_MODE && wrote == 0);
    CHECK(24, phone_format(&other, &number, B("567"), 1, out, 99, &wrote) == PHONE_UNKNOWN_CODE && wrote == 0);
    CHECK(25, phone_format(&h, &number, B("567"), 1, out, 99, &wrote) == PHONE_OK && wrote == 17 && !memcmp(out, "+999 234 ext. 567", 17));
    CHECK(26, phone_is_viable(B("\xff"), &flag) == PHONE_NOT_UTF8 && flag == 9);
    CHECK(27, phone_is_viable(B("call me"), &flag) == PHONE_OK && flag == 0);
    CHECK(28, phone_is_viable(B("+999 234"), &flag) == PHONE_OK && flag == 1);
    CHECK(29, phone_open(B("["), PHONE_CRATE, &h) == PHONE_MALFORMED_JSON && !h.at);
    CHECK(30, report(&h, "", "1", 1, 10) == PHONE_IS_CLOSED && parse(&h, "", "1", 1, 10) == PHONE_IS_CLOSED);
    phone_close(&h);
    phone_close(&other);
    phone_close(&other);
    CHECK(33, blocks == 0);
    for (long k = 0;; k++) { /* opening a small table, each request refused in turn */
        requests = 0, refuse_at = k;
        phone_status status = phone_open(B(SMALL), PHONE_CRATE, &h);
        refuse_at = -1;
        CHECK(31, (status == PHONE_OK && h.at) || (requests > k && status == PHONE_MEMORY && !h.at && blocks == 0));
        if (requests <= k) { printf("requests of opening a small table: %ld\n", k); break; }
        CHECK(32, phone_open(B(SMALL), PHONE_CRATE, &h) == PHONE_OK);
    }
    phone_close(&h);
    CHECK(34, blocks == 0);
    return 0;
}
static int by_rules(void) {
    phone_handle h = PHONE_CLOSED, l = PHONE_CLOSED;
    CHECK(600, phone_open(B("\xff"), 2, &h) == PHONE_NO_RULES && !h.at);
    CHECK(601, phone_share_by(&h, 2, &l) == PHONE_NO_RULES && phone_share_by(&h, PHONE_LIBRARY, &l) == PHONE_IS_CLOSED && !l.at);
    CHECK(602, phone_open(B(SMALL), PHONE_CRATE, &h) == PHONE_OK && phone_share_by(&h, PHONE_LIBRARY, &l) == PHONE_OK);
    CHECK(603, phone_open(B(SMALL), UINT32_MAX, &h) == PHONE_NO_RULES && !h.at && l.at);
    CHECK(604, parse(&l, "xx", "\xff", 1, sizeof out) == PHONE_NO_REGION && parse(&l, "", "\xff", 1, sizeof out) == PHONE_NOT_UTF8);
    CHECK(605, parse(&l, "", "call me", 7, sizeof out) == PHONE_NO_NUMBER && number.zeros == 0x55);
    CHECK(606, parse(&l, "", "+999 234 ext. 567", 17, sizeof out) == PHONE_OK && number.value == 234 && wrote == 3);
    CHECK(607, phone_format(&l, &number, B("567"), 9, out, 9, &wrote) == PHONE_NO_MODE);
    /* The carrier is printed by the rules of the crate alone, and looked at by both. */
    number.carrier.is_there = 1, number.carrier.start = 9, number.carrier.len = 1;
    CHECK(608, phone_format(&l, &number, B("567"), 2, out, 99, &wrote) == PHONE_BAD_NUMBER);
    phone_close(&l);
    CHECK(609, blocks == 0);
    return 0;
}
static int typing(void) {
    phone_handle h = PHONE_CLOSED;
    size_t place = 9;
    static char many[10000];
    CHECK(700, shown(&h, "", "1", 1, 9) == PHONE_IS_CLOSED && wrote == 0 && is_untouched(0));
    CHECK(701, caret(&h, "1", 1, &place) == PHONE_IS_CLOSED && place == 9);
    CHECK(702, phone_open(B(SMALL), PHONE_CRATE, &h) == PHONE_OK);
    CHECK(703, shown(&h, "xx", "1", 1, 9) == PHONE_NO_REGION && shown(&h, "", "\xff", 1, 9) == PHONE_NOT_UTF8 && wrote == 0);
    CHECK(704, shown(&h, "", NULL, 0, 0) == PHONE_OK && wrote == 0);
    CHECK(705, shown(&h, "", "+999 1", 6, sizeof out) == PHONE_OK && wrote == 6 && !memcmp(out, "+999 1", 6) && is_untouched(6));
    CHECK(706, shown(&h, "", "a\0+9", 4, 2) == PHONE_OK && wrote == 2 && !memcmp(out, "+9", 2));
    CHECK(707, caret(&h, "+9991", SIZE_MAX, &place) == PHONE_OK && place == 6);
    CHECK(708, caret(&h, "+9991", 0, &place) == PHONE_OK && place == 0);
    CHECK(709, caret(&h, "+9991", 4, &place) == PHONE_OK && place == 4);
    CHECK(710, caret(&h, "+9991", 5, &place) == PHONE_OK && place == 6);
    memset(many, '7', sizeof many);
    CHECK(711, shown(&h, "", many, sizeof many, sizeof out) == PHONE_TOO_SMALL && wrote >= sizeof many && is_untouched(0));
    phone_close(&h);
    CHECK(712, blocks == 0);
    return 0;
}
static phone_status keyed(phone_handle *h, const char *hint, const void *typed, size_t len, size_t room) {
    fill();
    return phone_keyed_shown(h, phone_text(hint, strlen(hint)), strlen(hint), phone_text(typed, len), len, out, room, &wrote);
}
static phone_status keyed_caret(phone_handle *h, const char *typed, size_t n, size_t *told) {
    return phone_keyed_caret(h, phone_text("", 0), 0, phone_text(typed, strlen(typed)), strlen(typed), n, told);
}
static int typing_by_library(void) {
    phone_handle h = PHONE_CLOSED;
    size_t place = 9;
    static char many[2000];
    CHECK(720, keyed(&h, "", "1", 1, 9) == PHONE_IS_CLOSED && wrote == 0 && is_untouched(0));
    CHECK(721, keyed_caret(&h, "1", 1, &place) == PHONE_IS_CLOSED && place == 9);
    CHECK(722, phone_open(B(SMALL), PHONE_CRATE, &h) == PHONE_OK);
    CHECK(723, keyed(&h, "xx", "1", 1, 9) == PHONE_NO_REGION && keyed(&h, "", "\xff", 1, 9) == PHONE_NOT_UTF8 && wrote == 0);
    CHECK(724, keyed(&h, "", NULL, 0, 0) == PHONE_OK && wrote == 0);
    CHECK(725, keyed(&h, "", "+9991", 5, 6) == PHONE_OK && wrote == 6 && !memcmp(out, "+999 1", 6) && is_untouched(6));
    CHECK(726, keyed(&h, "", "+9991", 5, 5) == PHONE_TOO_SMALL && wrote == 6 && is_untouched(0));
    CHECK(727, keyed(&h, "", "a\0+9", 4, 4) == PHONE_OK && wrote == 4 && !memcmp(out, "a\0+9", 4));
    CHECK(728, keyed_caret(&h, "+9991", SIZE_MAX, &place) == PHONE_OK && place == 6);
    CHECK(729, keyed_caret(&h, "+9991", 0, &place) == PHONE_OK && place == 0);
    CHECK(730, keyed_caret(&h, "+9991", 4, &place) == PHONE_OK && place == 4);
    CHECK(731, keyed_caret(&h, "+9991x", 5, &place) == PHONE_OK && place == 5);
    memset(many, '7', sizeof many);
    CHECK(732, keyed(&h, "", many, sizeof many, sizeof out) == PHONE_OK && wrote >= sizeof many && is_untouched(wrote));
    for (long k = 0;; k++) {
        requests = 0, refuse_at = k, place = 9;
        phone_status status = keyed_caret(&h, "+9991", 5, &place);
        refuse_at = -1;
        CHECK(733, status == PHONE_OK ? place == 6 : status == PHONE_MEMORY && place == 9);
        if (requests <= k) break;
    }
    phone_close(&h);
    CHECK(734, blocks == 0);
    return 0;
}
static int shorts(void) {
    phone_handle h = PHONE_CLOSED;
    phone_short_facts facts = {9, 9, 9, 9, 9, 9};
    CHECK(800, phone_short(&h, B("NZ"), B("111"), &facts) == PHONE_IS_CLOSED && facts.cost == 9);
    CHECK(801, phone_open(B(SHORT), PHONE_CRATE, &h) == PHONE_OK);
    CHECK(802, phone_short(&h, B("xx"), B("111"), &facts) == PHONE_NO_REGION && facts.cost == 9);
    CHECK(803, phone_short(&h, phone_text(NULL, 0), 0, B("111"), &facts) == PHONE_NO_REGION && facts.cost == 9);
    CHECK(804, phone_short(&h, B("NZ"), B("\xff"), &facts) == PHONE_NOT_UTF8 && facts.cost == 9);
    CHECK(805, phone_short(&h, B("NZ"), B("111"), &facts) == PHONE_OK && facts.cost == PHONE_COST_TOLL_FREE && facts.is_possible == 1
        && facts.is_valid == 1 && facts.is_carrier_specific == 0 && facts.is_emergency == 1 && facts.reaches_emergency == 1);
    CHECK(806, phone_short(&h, B("NZ"), B("1112"), &facts) == PHONE_OK && facts.cost == PHONE_COST_UNKNOWN && facts.is_possible == 0
        && facts.is_valid == 0 && facts.is_emergency == 0 && facts.reaches_emergency == 1);
    CHECK(807, phone_short(&h, B("US"), B("911"), &facts) == PHONE_OK && facts.is_possible == 0 && facts.reaches_emergency == 0);
    for (long k = 0;; k++) {
        requests = 0, refuse_at = k, facts.cost = 9;
        phone_status status = phone_short(&h, B("NZ"), B("111"), &facts);
        refuse_at = -1;
        CHECK(808, status == PHONE_OK ? facts.cost == PHONE_COST_TOLL_FREE : requests > k && status == PHONE_MEMORY && facts.cost == 9);
        if (requests <= k) break;
    }
    phone_close(&h);
    CHECK(809, blocks == 0);
    return 0;
}
static phone_status longest(phone_prefixes *p, const char *digits, size_t room, size_t *prefix) {
    fill();
    return phone_prefixes_longest(p, phone_text(digits, strlen(digits)), strlen(digits), out, room, &wrote, prefix);
}
static int prefixes(void) {
    phone_prefixes p = PHONE_CLOSED;
    size_t line = 9, prefix = 9;
    phone_prefixes_close(&p);
    CHECK(900, longest(&p, "64", 9, &prefix) == PHONE_IS_CLOSED && wrote == 0 && is_untouched(0) && prefix == 9);
    CHECK(901, phone_prefixes_open(B("1\ta\n\n"), &p, &line) == PHONE_LINE_EMPTY && line == 2 && !p.at);
    CHECK(902, phone_prefixes_open(B("1 a"), &p, &line) == PHONE_LINE_NO_TAB && line == 1 && !p.at);
    CHECK(903, phone_prefixes_open(B("1\ta\n1234567890123456\ta"), &p, &line) == PHONE_LINE_NO_PREFIX && line == 2);
    CHECK(904, phone_prefixes_open(B("1\t\xff"), &p, &line) == PHONE_LINE_NOT_UTF8 && line == 1);
    CHECK(905, phone_prefixes_open(B("1\ta\n2\tb\n1\tc"), &p, &line) == PHONE_LINE_TWICE && line == 3 && !p.at);
    CHECK(906, phone_prefixes_open(phone_text(NULL, 0), 0, &p, &line) == PHONE_OK && line == 0 && p.at);
    CHECK(907, longest(&p, "64", 9, &prefix) == PHONE_NO_PREFIX && wrote == 0 && is_untouched(0) && prefix == 9);
    CHECK(908, phone_prefixes_open(B(PREFIXES), &p, &line) == PHONE_OK && line == 0 && p.at);
    CHECK(909, longest(&p, "6433316005", sizeof out, &prefix) == PHONE_OK && wrote == 12 && prefix == 3
        && !memcmp(out, "South Island", 12) && is_untouched(12));
    CHECK(910, longest(&p, "6421", sizeof out, &prefix) == PHONE_OK && wrote == 11 && prefix == 2 && !memcmp(out, "New Zealand", 11));
    CHECK(911, longest(&p, "12", sizeof out, &prefix) == PHONE_OK && wrote == 0 && prefix == 1 && is_untouched(0));
    prefix = 9;
    CHECK(912, longest(&p, "643", 11, &prefix) == PHONE_TOO_SMALL && wrote == 12 && is_untouched(0) && prefix == 9);
    CHECK(913, longest(&p, "6", sizeof out, &prefix) == PHONE_NO_PREFIX && longest(&p, "", 0, &prefix) == PHONE_NO_PREFIX);
    CHECK(914, longest(&p, "\xff", sizeof out, &prefix) == PHONE_NOT_UTF8 && wrote == 0 && prefix == 9);
    phone_prefixes_close(&p);
    phone_prefixes_close(&p);
    CHECK(915, !p.at && blocks == 0);
    for (long k = 0;; k++) { /* opening it, each request refused in turn */
        requests = 0, refuse_at = k;
        phone_status status = phone_prefixes_open(B(PREFIXES), &p, &line);
        refuse_at = -1;
        CHECK(916, line == 0 && (status == PHONE_OK ? p.at != NULL : requests > k && status == PHONE_MEMORY && !p.at && blocks == 0));
        if (requests <= k) break;
    }
    phone_prefixes_close(&p);
    CHECK(917, blocks == 0);
    return 0;
}
/* How the calls of two texts, of lengths, of regions and of numbers in texts refuse, in their order. */
static int possible(void) {
    phone_handle h = PHONE_CLOSED;
    phone_number n = {0, {0, 0, 0}, {0, 0, 0}, 64, PHONE_SOURCE_PLUS, 0}, bad = {1ull << 56, {0, 0, 0}, {0, 0, 0}, 64, PHONE_SOURCE_PLUS, 0};
    uint32_t told = 9;
    CHECK(1000, phone_possibility(&h, &bad, &told) == PHONE_IS_CLOSED);
    CHECK(1002, phone_text_possibility(&h, B("xx"), B("\xff"), &told) == PHONE_IS_CLOSED);
    CHECK(1004, phone_compare(&h, B("\xff"), B("1"), &told) == PHONE_IS_CLOSED && told == 9);
    CHECK(1005, phone_open(B(REGION), PHONE_LIBRARY, &h) == PHONE_OK && phone_possibility(&h, &bad, &told) == PHONE_BAD_NUMBER);
    CHECK(1006, phone_text_possibility(&h, B("xx"), B("\xff"), &told) == PHONE_NO_REGION);
    CHECK(1007, phone_text_possibility(&h, B("NZ"), B("\xff"), &told) == PHONE_NOT_UTF8);
    CHECK(1008, phone_text_possibility(&h, B("NZ"), B("call me"), &told) == PHONE_NO_NUMBER);
    CHECK(1009, phone_compare(&h, B("1234567"), B("\xff"), &told) == PHONE_NOT_UTF8);
    CHECK(1010, phone_compare(&h, B("call me"), B("+9991234567"), &told) == PHONE_NO_NUMBER && told == 9);
    CHECK(1011, phone_compare(&h, B("1234567"), B("\xff\xff"), &told) == PHONE_NOT_UTF8 && told == 9);
    CHECK(1012, phone_possibility(&h, &n, &told) == PHONE_OK && told == PHONE_LENGTH_TOO_SHORT);
    CHECK(1013, (n.code = 65, phone_possibility(&h, &n, &told)) == PHONE_OK && told == PHONE_LENGTH_UNKNOWN_CODE);
    CHECK(1014, phone_compare(&h, B("+64 2345678"), B("234-5678"), &told) == PHONE_OK && told == PHONE_MATCH_NATIONAL);
    phone_close(&h);
    CHECK(1015, blocks == 0);
    return 0;
}
static phone_status dialled(phone_handle *h, const char *region, const phone_number *n, size_t room) {
    fill();
    return phone_dialled_from(h, phone_text(region, strlen(region)), strlen(region), n, B(""), out, room, &wrote);
}
static phone_status example(phone_handle *h, const char *region, uint32_t kind, size_t room) {
    fill();
    memset(&number, 0x55, sizeof number);
    return phone_example(h, phone_text(region, strlen(region)), strlen(region), kind, &number, out, room, &wrote);
}
static phone_status find(phone_handle *h, const char *hint, uint32_t leniency, const void *text, size_t len, size_t room) {
    fill();
    return phone_find(h, phone_text(hint, strlen(hint)), strlen(hint), leniency, phone_text(text, len), len,
                         (phone_place *)out, room, &wrote);
}
static int listed(void) {
    phone_handle h = PHONE_CLOSED;
    phone_number n = {2345678, {0, 0, 0}, {0, 0, 0}, 64, PHONE_SOURCE_PLUS, 0}, bad = n;
    const phone_place *places = (const phone_place *)out;
    bad.source = 4;
    CHECK(1020, dialled(&h, "xx", &bad, 99) == PHONE_IS_CLOSED);
    CHECK(1021, example(&h, "xx", 17, 99) == PHONE_IS_CLOSED);
    CHECK(1022, find(&h, "xx", 2, "\xff", 1, 9) == PHONE_IS_CLOSED && wrote == 0 && is_untouched(0));
    CHECK(1023, phone_regions(&h, out, 9, &wrote) == PHONE_IS_CLOSED && phone_codes(&h, (uint16_t *)out, 9, &wrote) == PHONE_IS_CLOSED);
    CHECK(1024, phone_open(B(REGION), PHONE_LIBRARY, &h) == PHONE_OK && dialled(&h, "", &bad, 99) == PHONE_NO_REGION);
    CHECK(1025, dialled(&h, "DE", &bad, 99) == PHONE_BAD_NUMBER && dialled(&h, "DE", &n, 99) == PHONE_NO_TERRITORY);
    CHECK(1026, dialled(&h, "NZ", &n, 6) == PHONE_TOO_SMALL && wrote == 7 && is_untouched(0));
    CHECK(1027, dialled(&h, "NZ", &n, 7) == PHONE_OK && !memcmp(out, "2345678", 7) && is_untouched(7));
    CHECK(1028, (n.code = 65, dialled(&h, "NZ", &n, 99)) == PHONE_UNKNOWN_CODE && wrote == 0 && is_untouched(0));
    CHECK(1029, example(&h, "", 17, 99) == PHONE_NO_REGION && example(&h, "DE", 17, 99) == PHONE_NO_KIND);
    CHECK(1030, example(&h, "DE", 16, 99) == PHONE_NO_EXAMPLE && example(&h, "NZ", PHONE_KIND_FIXED_LINE, 99) == PHONE_NO_EXAMPLE);
    CHECK(1031, wrote == 0 && is_untouched(0) && number.zeros == 0x55);
    CHECK(1032, example(&h, "NZ", PHONE_KIND_MOBILE, 0) == PHONE_OK && number.value == 2345678 && number.code == 64 && wrote == 0);
    CHECK(1033, phone_regions(&h, out, 1, &wrote) == PHONE_TOO_SMALL && wrote == 2);
    CHECK(1034, phone_regions(&h, out, 2, &wrote) == PHONE_OK && wrote == 2 && !memcmp(out, "NZ", 2));
    CHECK(1035, phone_codes(&h, (uint16_t *)out, 0, &wrote) == PHONE_TOO_SMALL && wrote == 1);
    CHECK(1036, phone_codes(&h, (uint16_t *)out, 1, &wrote) == PHONE_OK && wrote == 1 && *(uint16_t *)out == 64);
    CHECK(1037, find(&h, "xx", 2, "\xff", 1, 9) == PHONE_NO_LENIENCY && find(&h, "xx", 1, "\xff", 1, 9) == PHONE_NO_REGION);
    CHECK(1038, find(&h, "NZ", 1, "\xff", 1, 9) == PHONE_NOT_UTF8 && find(&h, "NZ", 1, NULL, 0, 0) == PHONE_OK && wrote == 0);
    CHECK(1039, find(&h, "NZ", 1, "a 2345678, b 3456789", 20, 1) == PHONE_TOO_SMALL && wrote == 2 && is_untouched(0));
    CHECK(1040, find(&h, "NZ", 1, "a 2345678, b 3456789", 20, 2) == PHONE_OK && wrote == 2 && places[0].start == 2
        && places[0].end == 9 && places[1].start == 13 && places[1].end == 20 && is_untouched(2 * sizeof *places));
    phone_close(&h);
    CHECK(1041, blocks == 0);
    return 0;
}
/* How libphonenumber's further questions refuse, in their order, and leave what they were to write. */
static int questions(void) {
    phone_handle h = PHONE_CLOSED;
    phone_number n = {2345678, {0, 0, 0}, {0, 0, 0}, 64, PHONE_SOURCE_PLUS, 0}, bad = n, apart = n;
    phone_region_facts region = {9, 9, 9};
    phone_number_facts facts = {9, 9, 9, 9};
    uint32_t told = 9, kinds[4] = {9, 9, 9, 9};
    uint8_t flag = 9;
    size_t count = 9;
    bad.source = 4, apart.extension.is_there = 1, apart.extension.start = 9;
    CHECK(1060, phone_about_region(&h, B("xx"), &region) == PHONE_IS_CLOSED && region.code == 9);
    CHECK(1061, phone_about_number(&h, &bad, &facts) == PHONE_IS_CLOSED && phone_truncate(&h, &bad, &flag) == PHONE_IS_CLOSED);
    CHECK(1062, phone_is_valid_for(&h, B("\xff"), &bad, &flag) == PHONE_IS_CLOSED && flag == 9);
    CHECK(1063, phone_possibility_as(&h, 17, &bad, &told) == PHONE_IS_CLOSED && told == 9);
    CHECK(1064, phone_match_text(&h, &apart, B(""), B("\xff"), &told) == PHONE_IS_CLOSED);
    CHECK(1065, phone_match_texts(&h, B("\xff"), B("1"), &told) == PHONE_IS_CLOSED && told == 9);
    CHECK(1066, phone_national_prefix(&h, B("xx"), 0, out, 9, &wrote) == PHONE_IS_CLOSED && wrote == 0);
    CHECK(1067, phone_region_kinds(&h, B("xx"), kinds, 4, &count) == PHONE_IS_CLOSED && count == 0);
    CHECK(1068, phone_code_kinds(&h, 64, kinds, 4, &count) == PHONE_IS_CLOSED && kinds[0] == 9);
    CHECK(1069, phone_main_region(&h, 64, out, 9, &wrote) == PHONE_IS_CLOSED && wrote == 0);
    CHECK(1070, phone_national_with(&h, &apart, B(""), B("\xff"), 0, out, 9, &wrote) == PHONE_IS_CLOSED && wrote == 0);
    CHECK(1071, phone_open(B(REGION), PHONE_CRATE, &h) == PHONE_OK);
    CHECK(1072, phone_about_region(&h, B("xx"), &region) == PHONE_NO_REGION && phone_about_region(&h, B("DE"), &region) == PHONE_NO_TERRITORY);
    CHECK(1073, region.code == 9 && phone_about_region(&h, B("NZ"), &region) == PHONE_OK && region.code == 64 && !region.is_nanpa
        && !region.is_portable);
    CHECK(1074, phone_national_prefix(&h, B(""), 0, out, 9, &wrote) == PHONE_NO_REGION);
    CHECK(1075, phone_national_prefix(&h, B("NZ"), 1, out, 0, &wrote) == PHONE_OK && wrote == 0);
    CHECK(1076, phone_region_kinds(&h, B(""), kinds, 4, &count) == PHONE_NO_REGION && count == 0);
    CHECK(1077, phone_region_kinds(&h, B("NZ"), kinds, 0, &count) == PHONE_TOO_SMALL && count == 1 && kinds[0] == 9);
    CHECK(1078, phone_region_kinds(&h, B("NZ"), kinds, 1, &count) == PHONE_OK && count == 1 && kinds[0] == PHONE_KIND_MOBILE && kinds[1] == 9);
    CHECK(1079, phone_code_kinds(&h, 64, kinds, 0, &count) == PHONE_OK && count == 0);
    CHECK(1080, phone_main_region(&h, 65, out, 9, &wrote) == PHONE_UNKNOWN_CODE && wrote == 0);
    CHECK(1081, phone_main_region(&h, 64, out, 1, &wrote) == PHONE_TOO_SMALL && wrote == 2);
    CHECK(1082, phone_main_region(&h, 64, out, 2, &wrote) == PHONE_OK && !memcmp(out, "NZ", 2));
    CHECK(1083, phone_about_number(&h, &bad, &facts) == PHONE_BAD_NUMBER && facts.area_length == 9);
    CHECK(1084, phone_is_valid_for(&h, B("\xff"), &bad, &flag) == PHONE_NOT_UTF8 && phone_is_valid_for(&h, B("NZ"), &bad, &flag) == PHONE_BAD_NUMBER);
    CHECK(1085, flag == 9 && phone_is_valid_for(&h, B("001"), &n, &flag) == PHONE_OK && flag == 0);
    CHECK(1086, phone_is_valid_for(&h, B("NZ"), &n, &flag) == PHONE_OK && flag == 1);
    CHECK(1087, phone_possibility_as(&h, 17, &bad, &told) == PHONE_NO_KIND && phone_possibility_as(&h, 1, &bad, &told) == PHONE_BAD_NUMBER);
    CHECK(1088, told == 9 && phone_possibility_as(&h, PHONE_KIND_MOBILE, &n, &told) == PHONE_OK && told == PHONE_LENGTH_POSSIBLE);
    CHECK(1089, phone_possibility_as(&h, PHONE_KIND_PAGER, &n, &told) == PHONE_OK && told == PHONE_LENGTH_WRONG_LENGTH);
    CHECK(1090, (flag = 9, phone_is_geographical(17, 64, &flag)) == PHONE_NO_KIND && flag == 9);
    CHECK(1091, phone_truncate(&h, &bad, &flag) == PHONE_BAD_NUMBER && flag == 9 && bad.source == 4);
    CHECK(1092, (apart.value = 23456789, phone_truncate(&h, &apart, &flag)) == PHONE_OK && flag == 1 && apart.value == 2345678
        && apart.extension.start == 9 && apart.extension.is_there == 1);
    CHECK(1093, (apart.value = 12, phone_truncate(&h, &apart, &flag)) == PHONE_OK && flag == 0 && apart.value == 12);
    CHECK(1094, phone_match_numbers(&n, B(""), &apart, B("12345678"), &told) == PHONE_BAD_NUMBER);
    CHECK(1095, phone_match_numbers(&bad, B(""), &n, B(""), &told) == PHONE_BAD_NUMBER && told == PHONE_LENGTH_WRONG_LENGTH);
    CHECK(1096, phone_match_text(&h, &apart, B(""), B("\xff"), &told) == PHONE_NOT_UTF8 && phone_match_text(&h, &apart, B(""), B("1"), &told) == PHONE_BAD_NUMBER);
    CHECK(1097, phone_match_text(&h, &n, B(""), B("call me"), &told) == PHONE_OK && told == PHONE_NOT_A_NUMBER);
    CHECK(1098, phone_match_texts(&h, B("1"), B("\xff"), &told) == PHONE_NOT_UTF8);
    CHECK(1099, phone_match_texts(&h, B("+64 2345678"), B("234-5678"), &told) == PHONE_OK && told == PHONE_NSN_MATCH);
    CHECK(1100, phone_national_with(&h, &apart, B(""), B("\xff"), 0, out, 9, &wrote) == PHONE_NOT_UTF8 && wrote == 0);
    CHECK(1101, phone_national_with(&h, &apart, B(""), B("9"), 0, out, 9, &wrote) == PHONE_BAD_NUMBER && wrote == 0);
    CHECK(1102, (apart.code = 65, apart.extension.is_there = 0, phone_national_with(&h, &apart, B(""), B(""), 1, out, 9, &wrote)) == PHONE_OK
        && wrote == 2 && !memcmp(out, "12", 2));
    CHECK(1103, phone_normalize(3, B("\xff"), out, 9, &wrote) == PHONE_NO_MODE && phone_normalize(2, B("\xff"), out, 9, &wrote) == PHONE_NOT_UTF8);
    CHECK(1104, wrote == 0 && phone_normalize(PHONE_FORM_DIGITS, B("+1a"), out, 9, &wrote) == PHONE_OK && wrote == 1 && out[0] == '1');
    CHECK(1105, (flag = 9, phone_has_letters(B("\xff"), &flag)) == PHONE_NOT_UTF8 && flag == 9);
    requests = 0, refuse_at = 0;
    CHECK(1106, phone_about_region(&h, B("NZ"), &region) == PHONE_OK && phone_main_region(&h, 64, out, 2, &wrote) == PHONE_OK);
    CHECK(1107, phone_mobile_token(54, out, 1, &wrote) == PHONE_OK && out[0] == '9' && phone_has_letters(B("call me"), &flag) == PHONE_OK);
    CHECK(1108, phone_is_geographical(PHONE_KIND_FIXED_LINE, 64, &flag) == PHONE_OK && flag == 1 && requests == 0);
    refuse_at = -1;
    phone_close(&h);
    CHECK(1109, blocks == 0);
    return 0;
}
#include "hostile_dialling.h"
static phone_status word(uint32_t set, uint32_t value, size_t room) {
    return set == 6 ? phone_status_words(value, out, room, &wrote) : phone_word(set, value, out, room, &wrote);
}
/* Each value of each set has a word, and each status too; no other has. */
static int words(void) {
    static const uint32_t COUNTS[] = {17, 4, 6, 5, 4, 0, 38};
    requests = 0, refuse_at = 0;
    for (uint32_t set = 0; set < 7; set++) /* the last stands for the statuses */
        for (uint32_t value = 0; value < 64; value++) {
            fill();
            phone_status status = word(set, value, sizeof out);
            int is_one = value < COUNTS[set] && (set != 6 || value < 13 || (value > 15 && value != 23));
            CHECK(1050, status == (is_one ? PHONE_OK : PHONE_NO_WORD) && (is_one ? wrote > 0 : wrote == 0) && is_untouched(wrote));
            size_t len = wrote;
            fill();
            CHECK(1051, !is_one || (word(set, value, len - 1) == PHONE_TOO_SMALL && wrote == len && is_untouched(0)));
        }
    CHECK(1052, phone_word(UINT32_MAX, 0, out, 9, &wrote) == PHONE_NO_WORD && requests == 0);
    refuse_at = -1;
    return 0;
}
/* What is laid out as no column, and what is no column's number: nothing is written. */
static phone_status laid(phone_handle *h, phone_texts texts, phone_texts hints) {
    fill();
    memset(places, 0xAA, sizeof places);
    phone_status status = written(phone_columns(h, &texts, &hints, COLUMNS, 13, places, PLACES, out, sizeof out, &wrote));
    return status && (wrote || !is_untouched(0)) ? 96 : status;
}
static int layouts(void) {
    static const uint64_t DOWN[] = {0, 22, 21, 29, 30}, FAR[] = {0, 22, 22, 29, UINT64_MAX};
    static const uint32_t NONE[] = {0, 13, 1};
    phone_handle h = PHONE_CLOSED;
    phone_texts four = phone_texts_of(WIDE, 4, FOUR, BITS, 0), three = phone_texts_of(WIDE, 3, FOUR, BITS, 0);
    phone_texts hint = phone_one_hint("", 0), it = four;
    CHECK(1100, laid(&h, four, hint) == PHONE_IS_CLOSED && laid(&h, four, three) == PHONE_IS_CLOSED);
    CHECK(1101, phone_open(B(SMALL), PHONE_CRATE, &h) == PHONE_OK && laid(&h, four, hint) == PHONE_OK);
    CHECK(1102, laid(&h, four, four) == PHONE_OK && laid(&h, four, three) == PHONE_BAD_LAYOUT && laid(&h, three, four) == PHONE_BAD_LAYOUT);
    CHECK(1103, (it.offsets = DOWN, laid(&h, it, hint)) == PHONE_BAD_LAYOUT && laid(&h, four, it) == PHONE_BAD_LAYOUT);
    CHECK(1104, (it.offsets = FAR, laid(&h, it, hint)) == PHONE_BAD_LAYOUT && laid(&h, four, it) == PHONE_BAD_LAYOUT);
    CHECK(1105, (it = four, it.bytes_len = 29, laid(&h, it, hint)) == PHONE_BAD_LAYOUT);
    CHECK(1106, (it = four, it.first = 4, laid(&h, it, hint)) == PHONE_OK && (it.first = 5, laid(&h, it, hint)) == PHONE_BAD_LAYOUT);
    CHECK(1107, (it.first = SIZE_MAX - 3, laid(&h, it, hint)) == PHONE_BAD_LAYOUT && (it.first = SIZE_MAX, laid(&h, it, hint)) == PHONE_BAD_LAYOUT);
    CHECK(1108, (it = four, it.offsets_len = 0, laid(&h, it, hint)) == PHONE_OK && wrote == 32);
    CHECK(1109, laid(&h, phone_texts_of(NULL, 0, NULL, NULL, 9), hint) == PHONE_OK && wrote == 32);
    fill();
    CHECK(1110, phone_columns(&h, &four, &hint, NONE, 3, places, PLACES, out, 9, &wrote) == PHONE_NO_COLUMN && !wrote && is_untouched(0));
    CHECK(1111, phone_columns(&h, &four, &hint, NONE, 0, places, 0, out, 0, &wrote) == PHONE_OK && wrote == 0 && is_untouched(0));
    CHECK(1112, phone_columns(&h, &four, &hint, NONE, 1, places, 1, out, sizeof out, &wrote) == PHONE_TOO_SMALL && is_untouched(0));
    phone_close(&h);
    CHECK(1113, blocks == 0);
    return 0;
}
/* The table in the library, with requests refused at ever later places; and the calls that take no memory. */
static int world_in_library(void) {
    phone_handle h = PHONE_CLOSED;
    phone_prefixes p = PHONE_CLOSED;
    size_t len = 0, line, prefix;
    uint8_t flag;
    CHECK(950, phone_world_text(&len) == phone_world_text(&line) && len == line && len > 0);
    for (long k = 0;; k = 2 * k + 1) {
        requests = 0, refuse_at = k;
        phone_status status = phone_open_world(&h, PHONE_CRATE);
        refuse_at = -1;
        CHECK(951, status == PHONE_OK ? h.at != NULL : requests > k && status == PHONE_MEMORY && !h.at && blocks == 0);
        if (requests <= k) { printf("requests of opening the table in the library: %ld\n", requests); break; }
    }
    CHECK(952, report(&h, "NZ", "03-331 6005", 11, sizeof out) == PHONE_OK && !memcmp(out, "ok\t+6433316005\t", 15));
    CHECK(953, phone_prefixes_open(B(PREFIXES), &p, &line) == PHONE_OK);
    requests = 0, refuse_at = 0;
    CHECK(954, phone_version() == PHONE_VERSION && phone_table_version(out, sizeof out, &wrote) == PHONE_OK);
    CHECK(955, phone_is_viable(B("03-331 6005"), &flag) == PHONE_OK && flag == 1);
    CHECK(956, longest(&p, "6433316005", sizeof out, &prefix) == PHONE_OK && prefix == 3);
    phone_close(&h);
    phone_prefixes_close(&p);
    CHECK(958, requests == 0 && blocks == 0);
    refuse_at = -1;
    return 0;
}
/* Handles on one table, closed in any order: the last one frees it. Each request of sharing is refused in turn. */
static int shared(void) {
    phone_handle h = PHONE_CLOSED, mine = PHONE_CLOSED, third = PHONE_CLOSED;
    phone_prefixes p = PHONE_CLOSED, own = PHONE_CLOSED;
    size_t line = 9, prefix = 9;
    CHECK(960, phone_share(&h, &mine) == PHONE_IS_CLOSED && !h.at && !mine.at);
    CHECK(961, phone_open(B("[]"), PHONE_CRATE, &mine) == PHONE_OK);
    CHECK(962, phone_share(&h, &mine) == PHONE_IS_CLOSED && !mine.at && blocks == 0);
    CHECK(963, phone_open(B(SMALL), PHONE_CRATE, &h) == PHONE_OK && phone_open(B("[]"), PHONE_CRATE, &mine) == PHONE_OK);
    long held = blocks;
    for (long k = 0;; k++) {
        requests = 0, refuse_at = k;
        phone_status status = phone_share(&h, &mine);
        refuse_at = -1;
        CHECK(964, h.at && (status == PHONE_OK ? mine.at && mine.at != h.at : requests > k && status == PHONE_MEMORY && !mine.at));
        CHECK(965, blocks < held && report(&h, "", "+999 234", 8, sizeof out) == PHONE_OK);
        if (requests <= k) { printf("requests of sharing a table: %ld\n", k); break; }
    }
    CHECK(966, phone_share(&mine, &third) == PHONE_OK && phone_share(&mine, &third) == PHONE_OK);
    phone_close(&h);
    CHECK(967, report(&h, "", "+999 234", 8, sizeof out) == PHONE_IS_CLOSED);
    CHECK(968, report(&mine, "", "+999 234", 8, sizeof out) == PHONE_OK && !memcmp(out, "ok\t+999234\t", 11));
    CHECK(969, phone_open(B("["), PHONE_CRATE, &mine) == PHONE_MALFORMED_JSON && !mine.at && blocks > 0);
    CHECK(970, report(&third, "", "+999 234", 8, sizeof out) == PHONE_OK && !memcmp(out, "ok\t+999234\t", 11));
    phone_close(&third);
    CHECK(971, blocks == 0);
    CHECK(972, phone_prefixes_share(&p, &own) == PHONE_IS_CLOSED && !p.at && !own.at);
    CHECK(973, phone_prefixes_open(B(PREFIXES), &p, &line) == PHONE_OK);
    for (long k = 0;; k++) {
        requests = 0, refuse_at = k;
        phone_status status = phone_prefixes_share(&p, &own);
        refuse_at = -1;
        CHECK(974, p.at && (status == PHONE_OK ? own.at && own.at != p.at : requests > k && status == PHONE_MEMORY && !own.at));
        if (requests <= k) break;
    }
    phone_prefixes_close(&p);
    CHECK(975, longest(&own, "6433", sizeof out, &prefix) == PHONE_OK && prefix == 3 && blocks > 0);
    phone_prefixes_close(&own);
    CHECK(976, blocks == 0);
    return 0;
}
/* An atlas: closed handles, refusals, each request refused in turn; it outlives the handles of its tables. */
static phone_status carrier(phone_handle *h, phone_atlas *atlas, size_t room) {
    fill();
    return phone_carrier(h, atlas, &number, phone_text(NULL, 0), 0, 1, out, room, &wrote);
}
static int atlases(void) {
    phone_handle h = PHONE_CLOSED, other = PHONE_CLOSED;
    phone_prefixes p[4] = {PHONE_CLOSED, PHONE_CLOSED, PHONE_CLOSED, PHONE_CLOSED}, zones = PHONE_CLOSED;
    phone_atlas atlas = PHONE_CLOSED;
    size_t line = 9;
    phone_number none;
    CHECK(1200, phone_open(B(SMALL), PHONE_LIBRARY, &h) == PHONE_OK && parse(&h, "", "+999 234", 8, sizeof out) == PHONE_OK);
    long held = blocks;
    memset(&none, 0xFF, sizeof none);
    phone_atlas_close(&atlas);
    CHECK(1201, carrier(&h, &atlas, 9) == PHONE_IS_CLOSED && wrote == 0 && is_untouched(0));
    CHECK(1202, phone_atlas_open(B("e\xff"), &p[0], &p[1], &p[2], &p[3], B(""), &atlas, &line) == PHONE_NOT_UTF8 && line == 0 && !atlas.at);
    CHECK(1203, phone_atlas_open(B("en"), &p[0], &p[1], &p[2], &p[3], B("A\t\xff"), &atlas, &line) == PHONE_NOT_UTF8 && line == 0);
    CHECK(1204, phone_atlas_open(B("en"), &p[0], &p[1], &p[2], &p[3], B("A\ta\nB"), &atlas, &line) == PHONE_LINE_NO_TAB && line == 2);
    CHECK(1205, !atlas.at && blocks == held && !p[0].at && !p[3].at);
    CHECK(1206, phone_prefixes_open(B("999\ta carrier"), &p[2], &line) == PHONE_OK && phone_prefixes_open(B(PREFIXES), &zones, &line) == PHONE_OK);
    held = blocks;
    for (long k = 0;; k++) {
        requests = 0, refuse_at = k;
        phone_status status = phone_atlas_open(B("en"), &p[0], &p[1], &p[2], &p[3], B("NZ\tNew Zealand"), &atlas, &line);
        refuse_at = -1;
        CHECK(1207, line == 0 && p[2].at && (status == PHONE_OK ? atlas.at != NULL : requests > k && status == PHONE_MEMORY && !atlas.at));
        CHECK(1208, status == PHONE_OK || blocks == held);
        if (requests <= k) { printf("requests of opening an atlas: %ld\n", k); break; }
    }
    phone_prefixes_close(&p[2]);
    for (long k = 0;; k++) {
        requests = 0, refuse_at = k;
        phone_status status = carrier(&h, &atlas, sizeof out);
        refuse_at = -1;
        CHECK(1209, h.at && atlas.at && (status == PHONE_OK ? wrote == 9 : requests > k && status == PHONE_MEMORY && wrote == 0 && is_untouched(0)));
        if (requests <= k) break;
    }
    CHECK(1210, carrier(&h, &atlas, 9) == PHONE_OK && !memcmp(out, "a carrier", 9) && is_untouched(9));
    CHECK(1211, carrier(&h, &atlas, 8) == PHONE_TOO_SMALL && wrote == 9 && is_untouched(0));
    CHECK(1212, phone_description(&h, &atlas, &number, out, 0, B("\xff"), 0, out, 9, &wrote) == PHONE_NOT_UTF8);
    CHECK(1213, phone_description(&h, &atlas, &none, out, 0, B(""), 0, out, 9, &wrote) == PHONE_BAD_NUMBER && wrote == 0);
    CHECK(1214, phone_time_zones(&h, &zones, &number, out, 0, 0, out, sizeof out, &wrote) == PHONE_OK && wrote == 11);
    phone_prefixes_close(&zones);
    CHECK(1215, phone_time_zones(&h, &zones, &number, out, 0, 0, out, sizeof out, &wrote) == PHONE_IS_CLOSED && wrote == 0);
    CHECK(1216, phone_matches(&h, B("zz"), 0, 9, B("+999 234"), places, PLACES, &wrote) == PHONE_NO_REGION && wrote == 0);
    CHECK(1217, phone_matches(&h, B(""), 9, 9, B("+999 234"), places, PLACES, &wrote) == PHONE_NO_LENIENCY && wrote == 0);
    CHECK(1218, phone_matches(&h, B(""), 0, 9, B("+999 234"), places, 0, &wrote) == PHONE_TOO_SMALL && wrote == 1);
    CHECK(1219, phone_matches(&h, B(""), 0, 9, B("\xff"), places, 0, &wrote) == PHONE_NOT_UTF8 && wrote == 0);
    CHECK(1230, phone_matches_by(&h, &other, B("zz"), 9, 9, B("\xff"), places, PLACES, &wrote) == PHONE_IS_CLOSED && h.at && wrote == 0);
    CHECK(1231, phone_matches_by(&other, &h, B("zz"), 9, 9, B("\xff"), places, PLACES, &wrote) == PHONE_IS_CLOSED && h.at && wrote == 0);
    CHECK(1232, phone_open(B(LAYOUTS), PHONE_CRATE, &other) == PHONE_OK);
    CHECK(1233, phone_matches_by(&h, &other, B("zz"), 4, 9, B("\xff"), places, PLACES, &wrote) == PHONE_NO_LENIENCY && wrote == 0);
    CHECK(1234, phone_matches_by(&h, &other, B("zz"), 3, 9, B("\xff"), places, PLACES, &wrote) == PHONE_NO_REGION && wrote == 0);
    CHECK(1235, phone_matches_by(&h, &other, B(""), 3, 9, B("\xff"), places, PLACES, &wrote) == PHONE_NOT_UTF8 && wrote == 0);
    CHECK(1236, phone_matches_by(&h, &other, B(""), 0, 9, B("+999 234"), places, 0, &wrote) == PHONE_TOO_SMALL && wrote == 1);
    for (long k = 0;; k++) {
        requests = 0, refuse_at = k;
        phone_status status = phone_matches_by(&h, &other, B(""), 0, 9, B("+999 234"), places, PLACES, &wrote);
        refuse_at = -1;
        CHECK(1237, h.at && other.at && (status == PHONE_OK ? wrote == 1 : requests > k && status == PHONE_MEMORY && wrote == 0));
        if (requests <= k) break;
    }
    phone_close(&other);
    phone_close(&h);
    CHECK(1220, carrier(&h, &atlas, 9) == PHONE_IS_CLOSED && atlas.at);
    phone_atlas_close(&atlas);
    CHECK(1221, !atlas.at && blocks == 0);
    return 0;
}
int main(int argc, char **argv) {
    long rounds = argc > 2 ? atol(argv[2]) : 100, most = 0;
    int wrong;
    if ((wrong = small()) || (wrong = by_rules()) || (wrong = typing()) || (wrong = typing_by_library()) || (wrong = shorts()) || (wrong = prefixes())
        || (wrong = possible()) || (wrong = listed()) || (wrong = questions()) || (wrong = dialling()) || (wrong = lettered()) || (wrong = words()) || (wrong = layouts())
        || (wrong = world_in_library()) || (wrong = atlases())
        || (wrong = shared())) return wrong;
    CHECK(100, phone_version() == PHONE_VERSION);
    fill();
    CHECK(104, phone_table_version(out, sizeof out, &wrote) == PHONE_OK && wrote == 21
        && !memcmp(out, "libphonenumber 9.0.35", 21) && is_untouched(21));
    fill();
    CHECK(105, phone_table_version(out, 20, &wrote) == PHONE_TOO_SMALL && wrote == 21 && is_untouched(0));
    fill();
    CHECK(106, phone_status_words(PHONE_NO_NUMBER, out, sizeof out, &wrote) == PHONE_OK && wrote == 12
        && !memcmp(out, "not a number", 12) && is_untouched(12));
    fill();
    CHECK(107, phone_status_words(PHONE_NO_NUMBER, out, 11, &wrote) == PHONE_TOO_SMALL && wrote == 12 && is_untouched(0));
    fill();
    CHECK(108, phone_status_words(13, out, sizeof out, &wrote) == PHONE_NO_WORD && wrote == 0 && is_untouched(0));
    FILE *file = argc > 1 ? fopen(argv[1], "rb") : NULL;
    CHECK(101, file != NULL);
    static uint8_t text[1 << 20];
    size_t len = fread(text, 1, sizeof text, file), bytes_len;
    fclose(file);
    phone_handle h = PHONE_CLOSED;
    CHECK(102, phone_open(text, len, PHONE_CRATE, &h) == PHONE_OK);
    CHECK(103, parse(&h, "NZ", "03-331 6005 ext. 12", 19, sizeof out) == PHONE_OK && number.source == PHONE_SOURCE_DEFAULT);
    phone_number kept = number;
    uint8_t bytes[64];
    memcpy(bytes, out, bytes_len = wrote);
    CHECK(110, phone_share_by(&h, PHONE_LIBRARY, &second) == PHONE_OK);
    CHECK(111, phone_open(B(LAYOUTS), PHONE_LIBRARY, &own_layouts) == PHONE_OK
        && phone_open(B(SHORT), PHONE_LIBRARY, &own_shorts) == PHONE_OK);
    if ((wrong = every_room(&h, &kept, bytes, bytes_len))) return wrong;
    if ((wrong = refused(&h, &kept, bytes, bytes_len, &most))) return wrong;
    printf("most requests of a call: %ld\n", most);
    for (long i = 0; i < rounds; i++)
        for (int which = 0; which < CALLS; which++)
            CHECK(1700 + which, call(which, &h, &kept, bytes, bytes_len, sizeof out) == PHONE_OK);
    phone_close(&h);
    phone_close(&second);
    phone_close(&own_layouts);
    phone_close(&own_shorts);
    CHECK(502, blocks == 0);
    for (long i = 0; i < rounds / 100; i++) {
        CHECK(500, phone_open(B(SMALL), PHONE_CRATE, &h) == PHONE_OK && blocks > 0);
        phone_close(&h);
        CHECK(503, blocks == 0);
    }
    puts("hostile: ok");
    return 0;
}
