/* Which table phone_open_newest takes, in a folder that this makes: a later one, and the library's beside what is older, the same, no
 * version, no table or a broken one; and each request for memory refused in turn. The last line is `renewed: ok`; else the number of the
 * first check that failed is printed. It is linked with --wrap, as hostile.c is. */
#define _GNU_SOURCE
#include "phone.h"
#include <stdio.h>
#include <stdlib.h>
#include <string.h>
#include <unistd.h>
#define B(s) (const uint8_t *)(s), strlen(s)
#define CHECK(n, is) do { if (!(is)) { printf("renewed: %d\n", n); return n; } } while (0)

void *__real_malloc(size_t n);
void *__real_realloc(void *p, size_t n);
void __real_free(void *p);
static long refuse_at = -1, requests, blocks;
void *__wrap_malloc(size_t n) {
    void *p = requests++ == refuse_at ? NULL : __real_malloc(n);
    return blocks += p != NULL, p;
}
void *__wrap_realloc(void *p, size_t n) {
    void *to = requests++ == refuse_at ? NULL : __real_realloc(p, n);
    return blocks += !p && to, to;
}
void __wrap_free(void *p) { blocks -= p != NULL, __real_free(p); }

static const char SMALL[] = "[{\"id\": \"001\", \"country_code\": 999,"
    "\"general\": {\"national_number\": \"[1-9]\\\\d\\\\d\", \"possible_length\": [3]}}]";
static char folder[4096], own[64];
static uint8_t out[256];
static size_t wrote;
static phone_handle h = PHONE_CLOSED;

/* Writes a file of the folder, or removes it where there is no text. */
static int put(const char *name, const char *text) {
    char path[4200];
    snprintf(path, sizeof path, "%s/%s", folder, name);
    if (!text) return remove(path), 1;
    FILE *file = fopen(path, "wb");
    return file && fwrite(text, 1, strlen(text), file) == strlen(text) && fclose(file) == 0;
}

static phone_status newest(const char *of) { return phone_open_newest(&h, PHONE_LIBRARY, B(of), out, sizeof out, &wrote); }

/* Whether the table of this version is taken; the folder's has a code that the library's hasn't. */
static int is_taken(const char *of, const char *version) {
    int is_folders = strcmp(version, own) != 0;
    phone_number number;
    uint8_t texts[16];
    size_t len;
    if (newest(of) != PHONE_OK || wrote != strlen(version) || memcmp(out, version, wrote)) return 0;
    return (phone_parse(&h, B(""), B("+999 234"), &number, texts, sizeof texts, &len) == PHONE_OK) == is_folders;
}

static int versions(void) {
    static const char *const LATER[] = {"libphonenumber 99.0.0", "libphonenumber 99", "libphonenumber 9.0.999", "libphonenumber 9.10.1\r\n"};
    static const char *const OTHERS[] = {"libphonenumber 9.0.1\n", "libphonenumber 8.99.99", "libphonenumber", "", "another 99.0.0", "99.0.0",
        "libphonenumber ninety"};
    for (int i = 0; i < 4; i++) {
        char wanted[64];
        strcpy(wanted, LATER[i]);
        wanted[strcspn(wanted, "\r\n")] = 0;
        CHECK(10 + i, put("VERSION", LATER[i]) && is_taken(folder, wanted));
    }
    for (int i = 0; i < 7; i++) CHECK(20 + i, put("VERSION", OTHERS[i]) && is_taken(folder, own));
    CHECK(30, put("VERSION", own) && is_taken(folder, own));
    CHECK(31, put("VERSION", NULL) && is_taken(folder, own));
    CHECK(32, put("VERSION", LATER[0]) && put("world.compact", "[{\"id\":") && is_taken(folder, own));
    CHECK(33, put("world.compact", "phone_compact 1\n\1") && is_taken(folder, own));
    CHECK(34, put("world.compact", "") && is_taken(folder, own));
    CHECK(35, put("world.compact", NULL) && is_taken(folder, own));
    CHECK(36, put("world.compact", SMALL) && is_taken(folder, LATER[0]));
    return 0;
}

static int folders(void) {
    char path[4200];
    static char longest[5000];
    setenv("PHONE_TABLES", folder, 1);
    CHECK(40, is_taken("", "libphonenumber 99.0.0"));
    setenv("PHONE_TABLES", "", 1);
    CHECK(41, is_taken("", own));
    unsetenv("PHONE_TABLES");
    CHECK(42, is_taken("", own));
    snprintf(path, sizeof path, "%s/none", folder);
    CHECK(43, is_taken(path, own));
    snprintf(path, sizeof path, "%s/VERSION", folder);
    CHECK(44, is_taken(path, own));
    memset(longest, 'a', sizeof longest - 1);
    CHECK(45, is_taken(longest, own));
    CHECK(46, phone_open_newest(&h, PHONE_LIBRARY, (const uint8_t *)"a\0b", 3, out, sizeof out, &wrote) == PHONE_OK);
    return 0;
}

static int refusals(void) {
    CHECK(50, phone_open_newest(&h, 2, B(folder), out, sizeof out, &wrote) == PHONE_NO_RULES && !h.at && wrote == 0 && blocks == 0);
    CHECK(51, phone_open_newest(&h, 2, B(""), out, sizeof out, &wrote) == PHONE_NO_RULES && !h.at && wrote == 0 && blocks == 0);
    memset(out, 7, sizeof out);
    CHECK(52, phone_open_newest(&h, PHONE_CRATE, B(folder), out, 20, &wrote) == PHONE_TOO_SMALL && !h.at && wrote == 21 && blocks == 0);
    CHECK(53, out[0] == 7 && out[20] == 7);
    CHECK(54, phone_open_newest(&h, PHONE_CRATE, B(folder), out, 21, &wrote) == PHONE_OK && h.at && out[20] == '0' && out[21] == 7);
    phone_close(&h);
    long asked = 0;
    for (long k = 0;; k++) {
        requests = 0, refuse_at = k;
        phone_status status = newest(folder);
        asked = requests;
        refuse_at = -1;
        CHECK(55, status == PHONE_OK ? h.at != NULL && wrote == 21 : asked > k && status == PHONE_MEMORY && !h.at && wrote == 0 && blocks == 0);
        if (asked <= k) break;
    }
    phone_close(&h);
    CHECK(56, blocks == 0);
    printf("requests for memory: %ld\n", asked);
    return 0;
}

int main(void) {
    int wrong;
    const char *room = getenv("TMPDIR");
    snprintf(folder, sizeof folder, "%s/renewed-XXXXXX", room && *room ? room : "/tmp");
    CHECK(1, mkdtemp(folder) != NULL);
    CHECK(2, phone_table_version((uint8_t *)own, sizeof own - 1, &wrote) == PHONE_OK);
    CHECK(3, put("world.compact", SMALL));
    unsetenv("PHONE_TABLES");
    wrong = versions();
    if (!wrong) wrong = folders();
    if (!wrong) wrong = refusals();
    put("world.compact", NULL), put("VERSION", NULL);
    rmdir(folder);
    if (!wrong) puts("renewed: ok");
    return wrong;
}
