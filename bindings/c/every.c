/* Each call once, and what it answers; every.out has the lines. It compiles as C99, C11 and C++17, and reads no file. */
#include "phone.h"
#include <stdio.h>
#include <string.h>
#define TEXT(text) phone_text(text, strlen(text)), strlen(text)

static const char SHORT[] =
    "[{\"id\": \"NZ\", \"country_code\": 64, \"general\": {\"national_number\": \"1\\\\d\\\\d\", \"possible_length\": [3]}, "
    "\"emergency\": {\"national_number\": \"111\", \"possible_length\": [3]}, "
    "\"short_code\": {\"national_number\": \"1\\\\d\\\\d\", \"possible_length\": [3], \"example\": \"111\"}}]";
static const char LAYOUTS[] =
    "[{\"id\": \"001\", \"country_code\": 1, \"general\": {\"national_number\": \"1\"}, "
    "\"formats\": [{\"pattern\": \"(\\\\d)(\\\\d+)\", \"format\": \"$1 $2\", \"national_prefix_formatting_rule\": \"($NP$FG)\"}]}]";
static const char ALTERNATES[] =
    "[{\"id\": \"001\", \"country_code\": 64, \"general\": {\"national_number\": \"\\\\d+\"}, "
    "\"formats\": [{\"pattern\": \"(\\\\d)(\\\\d{4})(\\\\d{3})\", \"format\": \"$1 $2 $3\"}]}]";
static uint8_t out[256];
static size_t wrote;

/* The line of a call that wrote a text, and of one that told a number. */
static void text(const char *call, uint32_t status) {
    if (status == PHONE_OK) printf("%s: %.*s\n", call, (int)wrote, (const char *)out);
    else printf("%s: status %lu, %lu bytes\n", call, (unsigned long)status, (unsigned long)wrote);
}
static void value(const char *call, uint32_t status, unsigned long told) {
    if (status == PHONE_OK) printf("%s: %lu\n", call, told);
    else printf("%s: status %lu\n", call, (unsigned long)status);
}
/* What is told is looked at once the call was made. */
#define VALUE(call, made, told) do { uint32_t status = made; value(call, status, (unsigned long)(told)); } while (0)

/* The number of a text, by libphonenumber's rules, whose own texts go to `texts`. */
static phone_number number_of(phone_handle *world, const char *call, const char *line, uint8_t *texts, size_t *len) {
    phone_number number;
    memset(&number, 0, sizeof number);
    VALUE(call, phone_parse(world, TEXT("NZ"), TEXT(line), &number, texts, 64, len), 0);
    printf("+%u %.*s%llu, extension %.*s, source %u\n", number.code, number.zeros, "00000000", (unsigned long long)number.value,
           (int)number.extension.len, (const char *)texts + number.extension.start, number.source);
    return number;
}

/* The calls of a number, by libphonenumber's rules. */
static void of_number(phone_handle *world) {
    uint8_t texts[64], flag = 9;
    size_t len = 0;
    uint32_t kind = 99;
    phone_number number = number_of(world, "phone_parse", "03-331 6005 ext. 12", texts, &len);
    text("phone_format", phone_format(world, &number, texts, len, PHONE_MODE_NATIONAL, out, sizeof out, &wrote));
    VALUE("phone_kind", phone_kind(world, &number, &kind), kind);
    text("phone_region", phone_region(world, &number, out, sizeof out, &wrote));
    VALUE("phone_is_valid", phone_is_valid(world, &number, &flag), flag);
    text("phone_key", phone_key(&number, out, sizeof out, &wrote));
}

/* The same calls by the rules of the crate, behind a second handle. */
static void by_the_crate(phone_handle *world) {
    phone_handle crate = PHONE_CLOSED;
    phone_number number;
    uint8_t texts[64], flag = 9;
    size_t len = 0;
    uint32_t kind = 99;
    memset(&number, 0, sizeof number);
    VALUE("phone_share_by", phone_share_by(world, PHONE_CRATE, &crate), 0);
    world = &crate;
    text("phone_report", phone_report(world, TEXT("US"), TEXT("+44 (0)20 7946 0018"), out, sizeof out, &wrote));
    VALUE("phone_parse", phone_parse(world, TEXT("DE"), TEXT("301/23456"), &number, texts, sizeof texts, &len), number.code);
    text("phone_format", phone_format(world, &number, texts, len, PHONE_MODE_RFC3966, out, sizeof out, &wrote));
    VALUE("phone_kind", phone_kind(world, &number, &kind), kind);
    text("phone_region", phone_region(world, &number, out, sizeof out, &wrote));
    VALUE("phone_is_valid", phone_is_valid(world, &number, &flag), flag);
    phone_close(&crate);
}

/* The calls of a text, and of keys. */
static void of_text(phone_handle *world) {
    uint8_t flag = 9;
    size_t place = 99;
    text("phone_report",
         phone_report(world, TEXT("US"), TEXT("+44 (0)20 7946 0018"), out, sizeof out, &wrote));
    text("phone_report, no room", phone_report(world, TEXT(""), TEXT("call me"), out, 0, &wrote));
    text("phone_typing_shown", phone_typing_shown(world, TEXT("US"), TEXT("6502530"), out, sizeof out, &wrote));
    VALUE("phone_typing_caret", phone_typing_caret(world, TEXT("US"), TEXT("6502530"), 4, &place), place);
    text("phone_keyed_shown", phone_keyed_shown(world, TEXT("US"), TEXT("16502"), out, sizeof out, &wrote));
    VALUE("phone_keyed_caret", phone_keyed_caret(world, TEXT("US"), TEXT("16502"), 5, &place), place);
    VALUE("phone_is_viable", phone_is_viable(TEXT("call me"), &flag), flag);
    text("phone_status_words", phone_status_words(PHONE_TOO_LONG, out, sizeof out, &wrote));
}

/* The calls of two texts, of lengths, of regions, and of numbers in a text. */
static void of_more(phone_handle *world) {
    const char *line = "Ring 03-331 6005, or +1 650 253 0000";
    uint8_t texts[64];
    size_t len = 0;
    uint32_t told = 99;
    uint16_t codes[300] = {0};
    phone_place places[4] = {{0, 0}, {0, 0}, {0, 0}, {0, 0}};
    phone_number number = number_of(world, "phone_parse", "03-331 6005", texts, &len);
    VALUE("phone_possibility", phone_possibility(world, &number, &told), told);
    VALUE("phone_text_possibility", phone_text_possibility(world, TEXT("US"), TEXT("+1 650"), &told), told);
    VALUE("phone_compare", phone_compare(world, TEXT("+64 3 331 6005"), TEXT("331 6005"), &told), told);
    text("phone_dialled_from", phone_dialled_from(world, TEXT("DE"), &number, texts, len, out, sizeof out, &wrote));
    VALUE("phone_find", phone_find(world, TEXT("NZ"), PHONE_IF_VALID, TEXT(line), places, 4, &len), len);
    for (size_t i = 0; i < len; i++) printf("%.*s\n", (int)(places[i].end - places[i].start), line + places[i].start);
    VALUE("phone_example", phone_example(world, TEXT("NZ"), PHONE_KIND_UNKNOWN, &number, texts, 64, &len), 0);
    VALUE("phone_example", phone_example(world, TEXT("NZ"), PHONE_KIND_MOBILE, &number, texts, 64, &len), number.code);
    text("phone_regions", phone_regions(world, out, 0, &wrote));
    VALUE("phone_codes", phone_codes(world, codes, 300, &len), codes[0]);
    text("phone_word", phone_word(PHONE_KIND_WORDS, PHONE_KIND_FIXED_LINE_OR_MOBILE, out, sizeof out, &wrote));
}

/* The calls of a column of texts: a number, and what is none. */
static void of_columns(phone_handle *world) {
    static const uint64_t wide[] = {0, 11, 18};
    static const uint32_t narrow[] = {0, 11, 18}, columns[] = {PHONE_COLUMN_E164, PHONE_COLUMN_REFUSAL};
    static const char both[] = "03-331 6005call me";
    phone_texts texts = phone_texts_of(wide, 2, both, NULL, 0), hint = phone_one_hint("NZ", 2);
    phone_narrow_texts same = phone_narrow_texts_of(narrow, 2, both, NULL, 0), its = phone_narrow_one_hint("NZ", 2);
    phone_place places[3] = {{0, 0}, {0, 0}, {0, 0}};
    VALUE("phone_columns", phone_columns(world, &texts, &hint, columns, 2, places, 3, out, sizeof out, &wrote), wrote);
    printf("%.*s, %u, %u\n", (int)(places[1].end - places[1].start), (const char *)out + places[1].start, out[places[2].start],
           out[places[2].start + 1]);
    VALUE("phone_narrow_columns", phone_narrow_columns(world, &same, &its, columns, 2, places, 3, out, 0, &wrote), 0);
    VALUE("phone_narrow_columns", phone_narrow_columns(world, &same, &its, columns, 2, places, 3, out, sizeof out, &wrote), wrote);
}

/* libphonenumber's further questions. */
static void of_questions(phone_handle *world) {
    uint8_t texts[64], flag = 9;
    size_t len = 0, count = 0;
    uint32_t told = 99, kinds[16] = {0};
    phone_region_facts region = {0, 9, 9};
    phone_number_facts facts = {99, 99, 9, 9};
    phone_number left, number = number_of(world, "phone_parse", "03-331 60059", texts, &len);
    VALUE("phone_about_region", phone_about_region(world, TEXT("GB"), &region), region.code);
    printf("%u%u\n", region.is_nanpa, region.is_portable);
    text("phone_national_prefix", phone_national_prefix(world, TEXT("NZ"), 0, out, sizeof out, &wrote));
    VALUE("phone_region_kinds", phone_region_kinds(world, TEXT("AC"), kinds, 16, &count), count);
    for (size_t i = 0; i < count; i++) printf("%lu\n", (unsigned long)kinds[i]);
    text("phone_main_region", phone_main_region(world, 44, out, sizeof out, &wrote));
    VALUE("phone_code_kinds", phone_code_kinds(world, 800, kinds, 16, &count), kinds[0]);
    text("phone_mobile_token", phone_mobile_token(54, out, sizeof out, &wrote));
    left = number;
    VALUE("phone_truncate", phone_truncate(world, &left, &flag), flag);
    VALUE("phone_about_number", phone_about_number(world, &left, &facts), facts.area_length);
    printf("%u%u%u\n", (unsigned)facts.destination_length, facts.is_geographical, facts.is_dialled_from_abroad);
    VALUE("phone_is_valid_for", phone_is_valid_for(world, TEXT("NZ"), &left, &flag), flag);
    VALUE("phone_possibility_as", phone_possibility_as(world, PHONE_KIND_FIXED_LINE, &number, &told), told);
    VALUE("phone_is_geographical", phone_is_geographical(PHONE_KIND_MOBILE, 54, &flag), flag);
    VALUE("phone_match_numbers", phone_match_numbers(&number, texts, len, &left, texts, len, &told), told);
    VALUE("phone_match_text", phone_match_text(world, &left, texts, len, TEXT("03 331 6005"), &told), told);
    VALUE("phone_match_texts", phone_match_texts(world, TEXT("+64 3 331 6005"), TEXT("331 6005"), &told), told);
    text("phone_national_with", phone_national_with(world, &left, texts, len, TEXT("15"), 0, out, sizeof out, &wrote));
    text("phone_normalize", phone_normalize(PHONE_FORM_KEYS, TEXT("1-800-FLOWERS"), out, sizeof out, &wrote));
    VALUE("phone_has_letters", phone_has_letters(TEXT("1-800-FLOWERS"), &flag), flag);
}

/* How a number is dialled, and what it is as a short number. */
static void of_dialling(phone_handle *world) {
    const char *line = "03-331-6005";
    uint8_t texts[64], flag = 9;
    size_t len = 0;
    phone_handle layouts = PHONE_CLOSED, shorts = PHONE_CLOSED;
    phone_facts_anywhere facts = {9, 9, 9, 9};
    phone_number number = number_of(world, "phone_parse", line, texts, &len);
    text("phone_format_read",
         phone_format_read(world, PHONE_MODE_NATIONAL, TEXT(line), &number, texts, len, out, sizeof out, &wrote));
    text("phone_mobile_text", phone_mobile_text(world, TEXT("US"), 0, TEXT(line), &number, texts, len, out, sizeof out, &wrote));
    text("phone_text_from", phone_text_from(world, TEXT("UA"), TEXT(line), &number, texts, len, out, sizeof out, &wrote));
    text("phone_original_text", phone_original_text(world, TEXT("NZ"), TEXT(line), &number, texts, len, out, sizeof out, &wrote));
    VALUE("phone_open", phone_open(TEXT(LAYOUTS), PHONE_LIBRARY, &layouts), 0);
    text("phone_format_by", phone_format_by(world, &layouts, PHONE_MODE_NATIONAL, &number, texts, len, out, sizeof out, &wrote));
    VALUE("phone_open", phone_open(TEXT(SHORT), PHONE_LIBRARY, &shorts), 0);
    number.value = 111;
    VALUE("phone_short_anywhere", phone_short_anywhere(world, &shorts, &number, &facts), facts.cost);
    printf("%u%u%u\n", facts.is_possible, facts.is_valid, facts.is_carrier_specific);
    text("phone_short_example", phone_short_example(&shorts, TEXT("NZ"), PHONE_COST_ANY, out, sizeof out, &wrote));
    VALUE("phone_is_sms_service", phone_is_sms_service(world, &shorts, TEXT("NZ"), &number, &flag), flag);
    VALUE("phone_example_of_code", phone_example_of_code(world, 800, &number, texts, sizeof texts, &len), number.value);
    VALUE("phone_invalid_example", phone_invalid_example(world, TEXT("NZ"), &number, texts, sizeof texts, &len), number.value);
    phone_close(&layouts);
    phone_close(&shorts);
}

/* A number with its letters, an example of a kind, and our own answers. */
static void of_own(phone_handle *world) {
    const char *line = "0800 FLOWERS";
    uint8_t texts[64], flag = 9;
    size_t len = 0;
    uint32_t told = 99;
    phone_handle shorts = PHONE_CLOSED;
    phone_number number = number_of(world, "phone_parse", line, texts, &len), other;
    memset(&other, 0, sizeof other);
    text("phone_text_with_letters",
         phone_text_with_letters(world, TEXT("NZ"), TEXT(line), &number, texts, len, out, sizeof out, &wrote));
    text("phone_dialled_with_letters",
         phone_dialled_with_letters(world, TEXT("AT"), TEXT(line), &number, texts, len, out, sizeof out, &wrote));
    text("phone_extract", phone_extract(TEXT("Ring 03-331 6005!"), out, sizeof out, &wrote));
    VALUE("phone_own_match_text", phone_own_match_text(world, &number, texts, len, TEXT("0064 800 3569377"), &told), told);
    VALUE("phone_own_match_texts", phone_own_match_texts(world, TEXT("+64 3 331 6005"), TEXT("31 6005"), &told), told);
    VALUE("phone_example_of_kind", phone_example_of_kind(world, PHONE_KIND_PAGER, &other, texts, sizeof texts, &len), other.value);
    VALUE("phone_own_possibility", phone_own_possibility(world, PHONE_KIND_PAGER, &other, &told), told);
    VALUE("phone_own_match_numbers", phone_own_match_numbers(&number, texts, len, &other, texts, len, &told), told);
    VALUE("phone_reaches_from_abroad", phone_reaches_from_abroad(world, &other, &flag), flag);
    VALUE("phone_open", phone_open(TEXT(SHORT), PHONE_LIBRARY, &shorts), 0);
    number.value = 111;
    VALUE("phone_known_cost", phone_known_cost(world, &shorts, &number, &told), told);
    number.code = 1, number.value = 911;
    text("phone_own_mobile_text", phone_own_mobile_text(world, TEXT("CA"), 0, &number, texts, len, out, sizeof out, &wrote));
    phone_close(&shorts);
}

/* Where a number is, and the numbers in a text as libphonenumber finds them. */
static void of_places(phone_handle *world) {
    phone_prefixes areas = PHONE_CLOSED, english = PHONE_CLOSED, carriers = PHONE_CLOSED, none = PHONE_CLOSED, zones = PHONE_CLOSED;
    phone_atlas german = PHONE_CLOSED;
    phone_handle alternates = PHONE_CLOSED;
    phone_place places[2] = {{0, 0}, {0, 0}};
    uint8_t texts[64];
    size_t len = 0, line = 99;
    phone_number number = number_of(world, "phone_parse", "+41 44 668 1800", texts, &len);
    VALUE("phone_prefixes_open", phone_prefixes_open(TEXT("4144\tZ\xc3\xbcrich"), &areas, &line), 0);
    VALUE("phone_prefixes_open", phone_prefixes_open(TEXT("4122\tGeneva"), &english, &line), 0);
    VALUE("phone_prefixes_open", phone_prefixes_open(TEXT("41\tA carrier"), &carriers, &line), 0);
    VALUE("phone_prefixes_open", phone_prefixes_open(TEXT("41\tEurope/Zurich"), &zones, &line), 0);
    VALUE("phone_atlas_open, refused", phone_atlas_open(TEXT("de"), &areas, &english, &carriers, &none, TEXT("CH Schweiz"), &german, &line), 0);
    printf("line %u\n", (unsigned)line);
    VALUE("phone_atlas_open", phone_atlas_open(TEXT("de-AT"), &areas, &english, &carriers, &none, TEXT("CH\tSchweiz"), &german, &line), line);
    phone_prefixes_close(&areas);
    phone_prefixes_close(&english);
    phone_prefixes_close(&carriers);
    text("phone_description", phone_description(world, &german, &number, texts, len, TEXT("CH"), 0, out, sizeof out, &wrote));
    text("phone_description", phone_description(world, &german, &number, texts, len, TEXT("DE"), 0, out, sizeof out, &wrote));
    text("phone_carrier", phone_carrier(world, &german, &number, texts, len, 0, out, sizeof out, &wrote));
    text("phone_carrier", phone_carrier(world, &german, &number, texts, len, 1, out, sizeof out, &wrote));
    text("phone_safe_carrier", phone_safe_carrier(world, &german, &number, texts, len, out, sizeof out, &wrote));
    text("phone_country_name", phone_country_name(world, &german, &number, texts, len, out, sizeof out, &wrote));
    text("phone_time_zones", phone_time_zones(world, &zones, &number, texts, len, 0, out, sizeof out, &wrote));
    phone_prefixes_close(&zones);
    phone_atlas_close(&german);
    text("phone_atlas_close", phone_country_name(world, &german, &number, texts, len, out, sizeof out, &wrote));
    VALUE("phone_matches", phone_matches(world, TEXT("NZ"), PHONE_IF_VALID, 99, TEXT("3/10/2011: 03-331 6005"), places, 2, &len), len);
    printf("%u to %u\n", (unsigned)places[0].start, (unsigned)places[0].end);
    VALUE("phone_open", phone_open(TEXT(ALTERNATES), PHONE_LIBRARY, &alternates), 0);
    for (uint32_t each = PHONE_IF_POSSIBLE; each <= PHONE_IF_EXACT_GROUPING; each++) {
        const char *two = "03 3316 005, 033 31 60 05";
        VALUE("phone_matches", phone_matches(world, TEXT("NZ"), each, 99, TEXT(two), places, 2, &len), len);
        VALUE("phone_matches_by", phone_matches_by(world, &alternates, TEXT("NZ"), each, 99, TEXT(two), places, 2, &len), len);
    }
    phone_close(&alternates);
}

/* The calls of tables of their own. */
static void of_tables(void) {
    phone_handle numbers = PHONE_CLOSED;
    phone_prefixes prefixes = PHONE_CLOSED, mine = PHONE_CLOSED;
    phone_short_facts facts = {0, 0, 0, 0, 0, 0};
    size_t line = 99, len = 0;
    VALUE("phone_open", phone_open(TEXT(SHORT), PHONE_LIBRARY, &numbers), 0);
    VALUE("phone_short", phone_short(&numbers, TEXT("NZ"), TEXT("111"), &facts), facts.cost);
    printf("%u%u%u%u%u\n", facts.is_possible, facts.is_valid, facts.is_carrier_specific, facts.is_emergency,
           facts.reaches_emergency);
    phone_close(&numbers);
    VALUE("phone_close", phone_short(&numbers, TEXT("NZ"), TEXT("111"), &facts), 0);
    VALUE("phone_prefixes_open, refused", phone_prefixes_open(TEXT("64\tNew Zealand\n643"), &prefixes, &line), 0);
    VALUE("phone_prefixes_open", phone_prefixes_open(TEXT("64\tNew Zealand\n643\tSouth Island"), &prefixes, &line), line);
    VALUE("phone_prefixes_share", phone_prefixes_share(&prefixes, &mine), 0);
    phone_prefixes_close(&prefixes);
    text("phone_prefixes_longest", phone_prefixes_longest(&mine, TEXT("6433316005"), out, sizeof out, &wrote, &len));
    phone_prefixes_close(&mine);
    text("phone_prefixes_close", phone_prefixes_longest(&prefixes, TEXT("64"), out, sizeof out, &wrote, &len));
}

int main(void) {
    phone_handle world = PHONE_CLOSED, mine = PHONE_CLOSED, second = PHONE_CLOSED;
    size_t len = 0;
    const uint8_t *table = phone_world_text(&len);
    VALUE("phone_version", PHONE_OK, phone_version() == PHONE_VERSION);
    text("phone_table_version", phone_table_version(out, sizeof out, &wrote) == PHONE_OK ? (wrote = 14, PHONE_OK) : 99);
    VALUE("phone_world_text", PHONE_OK, len > 100000 && table[0] == '[');
    VALUE("phone_open_newest", phone_open_newest(&second, PHONE_LIBRARY, TEXT(""), out, sizeof out, &wrote), wrote > 14);
    phone_close(&second);
    VALUE("phone_open_world", phone_open_world(&world, PHONE_LIBRARY), 0);
    VALUE("phone_share", phone_share(&world, &mine), 0);
    of_number(&world);
    by_the_crate(&world);
    of_text(&world);
    phone_close(&world);
    VALUE("phone_share, closed", phone_share(&world, &second), 0);
    of_more(&mine);
    of_columns(&mine);
    of_questions(&mine);
    of_dialling(&mine);
    of_own(&mine);
    of_places(&mine);
    phone_close(&mine);
    of_tables();
    return 0;
}
