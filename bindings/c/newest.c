/* The newest table of the world: the one in the library, or that of a folder, where a later one was put there (phone-renew does). It is C
 * over phone_open and phone_open_world. When this is compiled, PHONE_SHARE is the folder as a path from the folder of the file that has
 * this code: the shared library's, or the program's. */
#ifndef _GNU_SOURCE
#define _GNU_SOURCE
#endif
#include "phone.h"
#include <errno.h>
#include <stdio.h>
#include <stdlib.h>
#include <string.h>

#ifndef PHONE_SHARE
#define PHONE_SHARE "../share/phonenumber-proved"
#endif
enum { PATH = 4096, LINE = 64, MOST = 1 << 28, TURNS = 8 };
/* No status: there is no later table. */
#define NONE UINT32_MAX

/* The bytes of a file; none where `at` is NULL. */
typedef struct { uint8_t *at; size_t len; } bytes;

static int is_digit(char c) { return c >= '0' && c <= '9'; }

/* A number of digits that goes on at `*at`, of at most nine. */
static unsigned long number(const char **at) {
    unsigned long told = 0;
    for (int i = 0; i < 9 && is_digit(**at); i++) told = told * 10 + (unsigned long)(*(*at)++ - '0');
    return told;
}

/* Whether a version is later than another, as "libphonenumber 9.0.36" than "libphonenumber 9.0.35": the words are the same, and the first
 * of the numbers that differs is greater. */
static int is_later(const char *one, const char *two) {
    while (*one && !is_digit(*one) && *one == *two) one++, two++;
    for (int i = 0; i < 4 && is_digit(*one) && is_digit(*two); i++) {
        unsigned long a = number(&one), b = number(&two);
        if (a != b) return a > b;
        if (*one == '.') one++;
        if (*two == '.') two++;
    }
    return 0;
}

/* A name in a folder; 0 where the path is too long. */
static int join(char *path, const char *folder, const char *name) {
    return strlen(folder) + strlen(name) + 2 <= PATH && snprintf(path, PATH, "%s/%s", folder, name) > 0;
}

/* The line that the file VERSION of a folder is; 0 where there is none. */
static int version_of(const char *folder, char *line) {
    char path[PATH];
    FILE *file = join(path, folder, "VERSION") ? fopen(path, "rb") : NULL;
    int is_there = file && fgets(line, LINE, file) != NULL;
    if (file) fclose(file);
    if (is_there) line[strcspn(line, "\r\n")] = 0;
    return is_there;
}

/* The bytes of the table in a folder. PHONE_MEMORY where memory for them was refused. */
static phone_status table_of(const char *folder, bytes *table) {
    char path[PATH];
    FILE *file = join(path, folder, "world.compact") ? fopen(path, "rb") : NULL;
    long end = file && !fseek(file, 0, SEEK_END) ? ftell(file) : -1;
    phone_status status = PHONE_OK;
    *table = (bytes){NULL, 0};
    if (end > 0 && end < MOST && !fseek(file, 0, SEEK_SET)) {
        table->at = malloc((size_t)end);
        if (!table->at) status = PHONE_MEMORY;
        else table->len = fread(table->at, 1, (size_t)end, file);
    }
    if (table->at && table->len != (size_t)end) free(table->at), *table = (bytes){NULL, 0};
    if (file) fclose(file);
    return status;
}

/* The folder beside the file that has this code, which /proc tells; 0 where it can't be told. */
static int own_folder(char *folder) {
    char line[PATH + 256], *slash;
    FILE *maps = fopen("/proc/self/maps", "r");
    int is_there = 0;
    while (maps && !is_there && fgets(line, sizeof line, maps)) {
        char *rest = line;
        uintptr_t here = (uintptr_t)&is_later, first = 0, end = 0;
        for (uintptr_t *each = &first;; each = &end, rest++) {
            for (const char *digits = "0123456789abcdef", *it; *rest && (it = strchr(digits, *rest)); rest++)
                *each = *each * 16 + (uintptr_t)(it - digits);
            if (each == &end || *rest != '-') break;
        }
        if (here < first || here >= end || !(rest = strchr(rest, '/')) || !(slash = strrchr(rest, '/'))) continue;
        *slash = 0;
        is_there = join(folder, rest, PHONE_SHARE);
    }
    if (maps) fclose(maps);
    return is_there;
}

/* The folder of tables: the one that a caller names, else that of PHONE_TABLES, else the one beside this file. */
static int folder_of(const uint8_t *given, size_t given_len, char *folder) {
    const char *named = given_len ? NULL : secure_getenv("PHONE_TABLES");
    if (!given_len && !named) return own_folder(folder);
    if (named) given = (const uint8_t *)named, given_len = strlen(named);
    if (!given_len || given_len >= PATH || memchr(given, 0, given_len)) return 0;
    memcpy(folder, given, given_len);
    folder[given_len] = 0;
    return 1;
}

/* Opens the table of a folder where its version is later than the one in `line`, which becomes it. NONE: there is none. */
static phone_status open_later(phone_handle *handle, uint32_t rules, const char *folder, char *line) {
    char before[LINE], behind[LINE];
    /* Where another program writes the table meanwhile, its version is another, or none, before or behind. */
    for (int turn = 0; turn < TURNS; turn++) {
        bytes table;
        phone_status status;
        if (!version_of(folder, before) || !is_later(before, line)) return NONE;
        if ((status = table_of(folder, &table)) != PHONE_OK) return phone_close(handle), status;
        if (!version_of(folder, behind) || strcmp(before, behind) != 0) {
            free(table.at);
            continue;
        }
        if (!table.at) return NONE;
        status = phone_open(table.at, table.len, rules, handle);
        free(table.at);
        if (status == PHONE_OK) memcpy(line, before, LINE);
        return status == PHONE_OK || status == PHONE_MEMORY || status == PHONE_NO_RULES ? status : NONE;
    }
    return NONE;
}

phone_status phone_open_newest(phone_handle *handle, uint32_t rules, const uint8_t *folder, size_t folder_len, uint8_t *out, size_t out_len,
    size_t *wrote) {
    char path[PATH], line[LINE] = "";
    size_t len = 0;
    int error = errno;
    phone_status status = NONE;
    *wrote = 0;
    phone_table_version((uint8_t *)line, LINE - 1, &len);
    line[len < LINE ? len : 0] = 0;
    if (folder_of(folder, folder_len, path)) status = open_later(handle, rules, path, line);
    errno = error;
    if (status == NONE) status = phone_open_world(handle, rules);
    if (status != PHONE_OK) return status;
    *wrote = len = strlen(line);
    if (len > out_len) return phone_close(handle), PHONE_TOO_SMALL;
    memcpy(out, line, len);
    return PHONE_OK;
}
