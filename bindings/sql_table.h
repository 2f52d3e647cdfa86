/* What the extensions of SQLite, PostgreSQL and DuckDB share: how a table is opened, and the names of modes.
 *
 * The file that includes this one defines first
 *   sql_memory(size)   memory of so many bytes, all of them zero, or NULL
 *   sql_forget(at)     gives memory back; nothing where `at` is NULL
 */
#ifndef SQL_TABLE_H
#define SQL_TABLE_H
#include "phone.h"
#include <errno.h>
#include <stdio.h>
#include <string.h>
#include <sys/stat.h>

/* A text that somebody else owns, in bytes. */
typedef struct { const char *at; size_t len; } sql_text;

/* The mode of a name, in capital or small letters. 0: there is none. */
static int sql_mode(sql_text name, uint32_t *mode) {
    static const char *const NAMES[] = {"e164", "international", "national", "rfc3966"};
    for (uint32_t each = 0; each < 4; each++) {
        size_t same = 0, len = strlen(NAMES[each]);
        while (same < len && same < name.len) {
            char c = name.at[same];
            if ((c >= 'A' && c <= 'Z' ? (char)(c + 32) : c) != NAMES[each][same]) break;
            same++;
        }
        if (same == len && len == name.len) return *mode = each, 1;
    }
    return 0;
}

/* The bytes of a file; NULL, and why in `why`, where it can't be read. */
static uint8_t *sql_read(const char *path, size_t *len, char *why, size_t why_len) {
    FILE *file = fopen(path, "rb");
    long end = file && !fseek(file, 0, SEEK_END) ? ftell(file) : -1;
    uint8_t *text = NULL;
    if (end >= 0 && end < 1 << 30 && !fseek(file, 0, SEEK_SET) && (text = sql_memory((size_t)end + 1)))
        *len = fread(text, 1, (size_t)end, file);
    if (!text || ferror(file)) {
        snprintf(why, why_len, "the table of phone numbers %s can't be read: %s", path,
                 errno ? strerror(errno) : "it is no file of a table");
        sql_forget(text);
        text = NULL;
    }
    if (file) fclose(file);
    return text;
}

/* What the table that is open is called: its version, or the path of a file that was named. */
static char sql_version[1024];

static int sql_is_folder(const char *path) {
    struct stat told;
    return !stat(path, &told) && S_ISDIR(told.st_mode);
}

/* Opens the table that a path names under a handle: that of a file; of a folder the newest of its own and the
 * library's; of an empty path the newest of that folder's that phone_open_newest looks in; of NULL the
 * library's. 0: the handle is closed, and why stands in `why`. */
static int sql_open(const char *path, phone_handle *world, char *why, size_t why_len) {
    uint8_t *text = NULL, words[128];
    int is_file = path && *path && !sql_is_folder(path);
    size_t len = 0, words_len = 0, room = sizeof sql_version - 1;
    phone_status status;
    errno = 0;
    if (is_file && !(text = sql_read(path, &len, why, why_len))) return phone_close(world), 0;
    memset(sql_version, 0, sizeof sql_version);
    if (is_file) {
        status = phone_open(text, len, PHONE_LIBRARY, world);
        snprintf(sql_version, sizeof sql_version, "%s", path);
    } else if (path) {
        status = phone_open_newest(world, PHONE_LIBRARY, phone_text(path, strlen(path)), strlen(path),
                                   (uint8_t *)sql_version, room, &len);
    } else {
        status = phone_open_world(world, PHONE_LIBRARY);
        phone_table_version((uint8_t *)sql_version, room, &len);
    }
    sql_forget(text);
    if (status != PHONE_OK) {
        phone_status_words(status, words, sizeof words, &words_len);
        snprintf(why, why_len, "the table of phone numbers %s is refused: %.*s", path ? path : "", (int)words_len, (const char *)words);
    }
    return status == PHONE_OK;
}
#endif
