/* The extension for SQLite: README.md says what its functions answer. A process has one table, and each
 * thread that calls one a handle of its own on it, so that none waits for another's call. The first call
 * opens the table, and the last of these threads to end gives it back. */
#include <sqlite3ext.h>
SQLITE_EXTENSION_INIT1
#include <pthread.h>
#include <stdlib.h>
#include <string.h>

static void *zeroed(size_t size) {
    void *at = sqlite3_malloc64(size ? size : 1);
    return at ? memset(at, 0, size) : NULL;
}
#define sql_memory(size) zeroed(size)
#define sql_forget(at) sqlite3_free(at)
#include "sql_common.h"

static pthread_once_t once = PTHREAD_ONCE_INIT;
static pthread_key_t key;
static int has_key;

/* The table, which is open while threads have a handle on it, and how many have. */
static pthread_mutex_t lock = PTHREAD_MUTEX_INITIALIZER;
static phone_handle world = PHONE_CLOSED;
static size_t threads;

static void take_lock(void) { pthread_mutex_lock(&lock); }
static void give_lock(void) { pthread_mutex_unlock(&lock); }

/* Opens a handle on the table, which is opened where it isn't open. 0: there is none, and why stands in
 * `why`, or nothing for memory. */
static int enter(phone_handle *mine, char *why, size_t why_len) {
    const char *path = getenv("PHONE_TABLE");
    int is_open = 0;
    take_lock();
    if (threads || sql_open(path ? path : "", &world, why, why_len))
        is_open = phone_share(&world, mine) == PHONE_OK;
    threads += is_open;
    if (!threads) phone_close(&world);
    give_lock();
    return is_open;
}

/* Closes the handle of a thread that ends. */
static void leave(void *mine) {
    phone_close(mine);
    free(mine);
    take_lock();
    if (!--threads) phone_close(&world);
    give_lock();
}

/* The child of a fork finds the lock free. */
static void make_key(void) {
    has_key = !pthread_atfork(take_lock, give_lock, give_lock) && !pthread_key_create(&key, leave);
}

/* The handle of this thread; NULL where there is none, and why stands in `why`, or nothing for memory. */
static phone_handle *world_or_why(char *why, size_t why_len) {
    phone_handle *mine;
    pthread_once(&once, make_key);
    mine = has_key ? pthread_getspecific(key) : NULL;
    if (mine) return mine;
    mine = has_key ? malloc(sizeof *mine) : NULL;
    if (!mine) return NULL;
    *mine = phone_closed();
    if (!enter(mine, why, why_len)) return free(mine), NULL;
    if (!pthread_setspecific(key, mine)) return mine;
    return leave(mine), NULL;
}

/* The same; where there is none, the result is an error. */
static phone_handle *world_of_thread(sqlite3_context *context) {
    char why[1024] = "";
    phone_handle *mine = world_or_why(why, sizeof why);
    if (!mine && *why) sqlite3_result_error(context, why, -1);
    else if (!mine) sqlite3_result_error_nomem(context);
    return mine;
}

/* The text of an argument. `at` is NULL where there was no memory for it. */
static sql_text text_of(sqlite3_value *value) {
    const char *at = (const char *)sqlite3_value_text(value);
    return (sql_text){at, (size_t)sqlite3_value_bytes(value)};
}

static void give(sqlite3_context *context, const sql_answer *answer) {
    switch (answer->kind) {
    case SQL_NOTHING: sqlite3_result_null(context); break;
    case SQL_TRUTH: sqlite3_result_int(context, answer->truth); break;
    case SQL_NUMBER: sqlite3_result_int(context, answer->number); break;
    case SQL_NO_MEMORY: sqlite3_result_error_nomem(context); break;
    case SQL_TEXT:
        sqlite3_result_text64(context, answer->text.at, answer->text.len, SQLITE_TRANSIENT, SQLITE_UTF8);
        break;
    }
}

/* Takes the arguments of a function: text, region, mode. A region that is NULL or left out is none. 0: the
 * answer is NULL, or an error, where memory was refused. */
static int take(sqlite3_context *context, int count, sqlite3_value **values, sql_call *call) {
    sql_text *const parts[] = {&call->text, &call->region, &call->mode};
    call->region = (sql_text){"", 0};
    for (int i = 0; i < count; i++) {
        int is_null = sqlite3_value_type(values[i]) == SQLITE_NULL;
        if (is_null && i != 1) return 0;
        if (!is_null) *parts[i] = text_of(values[i]);
        if (!parts[i]->at) return sqlite3_result_error_nomem(context), 0;
    }
    return 1;
}

/* The body of each function: its question is the function's own datum. */
static void ask(sqlite3_context *context, int count, sqlite3_value **values) {
    sql_call call = {*(const sql_question *)sqlite3_user_data(context), {0}, {0}, {0}};
    sql_answer answer;
    phone_handle *mine;
    if (!take(context, count, values, &call) || !(mine = world_of_thread(context))) return;
    sql_ask(mine, &call, &answer);
    give(context, &answer);
    sql_end(&answer);
}

/* phone_match(first, second): a NULL text of either gives NULL. */
static void match(sqlite3_context *context, int count, sqlite3_value **values) {
    if (sqlite3_value_type(values[1]) != SQLITE_NULL) ask(context, count, values);
}

/* The version of the table that is open, or the file of the one that PHONE_TABLE names. */
static void table_version(sqlite3_context *context, int count, sqlite3_value **values) {
    (void)count, (void)values;
    if (world_of_thread(context)) sqlite3_result_text(context, sql_version, -1, SQLITE_TRANSIENT);
}

/* phone_parts(text, region) as a table of one row, or of none where the text is NULL. */
typedef struct {
    sqlite3_vtab_cursor base;
    int is_there;
    phone_status status;
    phone_number number;
    sql_bytes texts;
} parts_cursor;
enum { REFUSAL_COLUMN = SQL_PARTS_COUNT, TEXT_COLUMN, REGION_COLUMN };

static int parts_connect(sqlite3 *db, void *data, int count, const char *const *words, sqlite3_vtab **table,
                         char **error) {
    (void)data, (void)count, (void)words, (void)error;
    int status = sqlite3_declare_vtab(db, "create table parts(e164, international, national, rfc3966, type, "
                                          "number_region, is_valid, refusal, number hidden, region hidden)");
    if (status != SQLITE_OK) return status;
    if (!(*table = zeroed(sizeof **table))) return SQLITE_NOMEM;
    return sqlite3_vtab_config(db, SQLITE_VTAB_INNOCUOUS);
}

static int parts_disconnect(sqlite3_vtab *table) { return sqlite3_free(table), SQLITE_OK; }

/* The text is given, and the region perhaps; both as equalities that are the table's own business. */
static int given_best(sqlite3_index_info *info, int text_column) {
    int text = -1, region = -1;
    for (int i = 0; i < info->nConstraint; i++) {
        const struct sqlite3_index_constraint *it = &info->aConstraint[i];
        if (it->op != SQLITE_INDEX_CONSTRAINT_EQ || it->iColumn < text_column) continue;
        if (!it->usable) return SQLITE_CONSTRAINT;
        *(it->iColumn == text_column ? &text : &region) = i;
    }
    if (text < 0) return SQLITE_CONSTRAINT;
    info->aConstraintUsage[text].argvIndex = 1;
    info->aConstraintUsage[text].omit = 1;
    if (region >= 0) {
        info->aConstraintUsage[region].argvIndex = 2;
        info->aConstraintUsage[region].omit = 1;
    }
    info->estimatedCost = 1;
    info->estimatedRows = 1;
    return SQLITE_OK;
}
static int parts_best(sqlite3_vtab *table, sqlite3_index_info *info) { return (void)table, given_best(info, TEXT_COLUMN); }

static int parts_open(sqlite3_vtab *table, sqlite3_vtab_cursor **cursor) {
    parts_cursor *mine = zeroed(sizeof *mine);
    (void)table;
    if (!mine) return SQLITE_NOMEM;
    sql_begin(&mine->texts);
    *cursor = &mine->base;
    return SQLITE_OK;
}

static int parts_close(sqlite3_vtab_cursor *cursor) {
    sql_forget(((parts_cursor *)cursor)->texts.many);
    return sqlite3_free(cursor), SQLITE_OK;
}

static int parts_filter(sqlite3_vtab_cursor *cursor, int plan, const char *name, int count, sqlite3_value **values) {
    parts_cursor *mine = (parts_cursor *)cursor;
    sql_call call = {SQL_E164, {0}, {"", 0}, {0}};
    char why[1024] = "";
    phone_handle *world;
    (void)plan, (void)name;
    mine->is_there = sqlite3_value_type(values[0]) != SQLITE_NULL;
    if (!mine->is_there) return SQLITE_OK;
    call.text = text_of(values[0]);
    if (count > 1 && sqlite3_value_type(values[1]) != SQLITE_NULL) call.region = text_of(values[1]);
    if (!call.text.at || !call.region.at) return SQLITE_NOMEM;
    if (!(world = world_or_why(why, sizeof why))) {
        if (!*why) return SQLITE_NOMEM;
        cursor->pVtab->zErrMsg = sqlite3_mprintf("%s", why);
        return SQLITE_ERROR;
    }
    sql_forget(mine->texts.many);
    sql_begin(&mine->texts);
    mine->status = sql_parse(world, &call, &mine->number, &mine->texts);
    return mine->status == PHONE_MEMORY ? SQLITE_NOMEM : SQLITE_OK;
}

static int parts_next(sqlite3_vtab_cursor *cursor) { return ((parts_cursor *)cursor)->is_there = 0, SQLITE_OK; }
static int parts_eof(sqlite3_vtab_cursor *cursor) { return !((parts_cursor *)cursor)->is_there; }
static int parts_row(sqlite3_vtab_cursor *cursor, sqlite3_int64 *row) { return (void)cursor, *row = 1, SQLITE_OK; }

static int parts_column(sqlite3_vtab_cursor *cursor, sqlite3_context *context, int column) {
    parts_cursor *mine = (parts_cursor *)cursor;
    sql_answer answer;
    phone_handle *world;
    if (column > REFUSAL_COLUMN || !(world = world_of_thread(context))) return SQLITE_OK;
    sql_part(world, column, mine->status, &mine->number, sql_at(&mine->texts), mine->texts.len, &answer);
    give(context, &answer);
    sql_end(&answer);
    return SQLITE_OK;
}

static const sqlite3_module PARTS = {
    .xConnect = parts_connect, .xDisconnect = parts_disconnect, .xBestIndex = parts_best, .xOpen = parts_open,
    .xClose = parts_close, .xFilter = parts_filter, .xNext = parts_next, .xEof = parts_eof, .xColumn = parts_column,
    .xRowid = parts_row};

/* phone_find(text, region) as a table: a row for each valid number that stands in the text, by its place in
 * characters, as substr counts them. The cursor has copies of text and region. */
typedef struct {
    sqlite3_vtab_cursor base;
    sql_text text, region;
    phone_place *places;
    size_t at, count;
} find_cursor;
enum { START_COLUMN, LENGTH_COLUMN, FOUND_COLUMN, KEY_COLUMN, SOURCE_COLUMN };

static int find_connect(sqlite3 *db, void *data, int count, const char *const *words, sqlite3_vtab **table,
                        char **error) {
    (void)data, (void)count, (void)words, (void)error;
    int status = sqlite3_declare_vtab(db, "create table finds(start, length, found, e164, text hidden, region hidden)");
    if (status != SQLITE_OK) return status;
    if (!(*table = zeroed(sizeof **table))) return SQLITE_NOMEM;
    return sqlite3_vtab_config(db, SQLITE_VTAB_INNOCUOUS);
}
static int find_best(sqlite3_vtab *table, sqlite3_index_info *info) { return (void)table, given_best(info, SOURCE_COLUMN); }

static int find_open(sqlite3_vtab *table, sqlite3_vtab_cursor **cursor) {
    find_cursor *mine = zeroed(sizeof *mine);
    (void)table;
    if (!mine) return SQLITE_NOMEM;
    *cursor = &mine->base;
    return SQLITE_OK;
}

/* Gives back what a cursor has; it has no row then. */
static void find_forget(find_cursor *mine) {
    sql_forget((char *)mine->text.at), sql_forget((char *)mine->region.at), sql_forget(mine->places);
    mine->text = mine->region = (sql_text){NULL, 0};
    mine->places = NULL;
    mine->at = mine->count = 0;
}

static int find_close(sqlite3_vtab_cursor *cursor) {
    find_forget((find_cursor *)cursor);
    return sqlite3_free(cursor), SQLITE_OK;
}

/* A copy of a value's text; `at` is NULL where there was no memory for it. */
static sql_text copy_of(sqlite3_value *value) {
    sql_text it = text_of(value);
    char *copy = it.at ? zeroed(it.len) : NULL;
    if (copy) memcpy(copy, it.at, it.len);
    return (sql_text){copy, it.len};
}

static int find_filter(sqlite3_vtab_cursor *cursor, int plan, const char *name, int count, sqlite3_value **values) {
    find_cursor *mine = (find_cursor *)cursor;
    sql_call call = {SQL_E164, {0}, {"", 0}, {0}};
    char why[1024] = "";
    phone_handle *world;
    (void)plan, (void)name;
    find_forget(mine);
    if (sqlite3_value_type(values[0]) == SQLITE_NULL) return SQLITE_OK;
    call.text = mine->text = copy_of(values[0]);
    if (!mine->text.at) return SQLITE_NOMEM;
    if (count > 1 && sqlite3_value_type(values[1]) != SQLITE_NULL) {
        call.region = mine->region = copy_of(values[1]);
        if (!mine->region.at) return SQLITE_NOMEM;
    }
    if (!(world = world_or_why(why, sizeof why))) {
        if (!*why) return SQLITE_NOMEM;
        cursor->pVtab->zErrMsg = sqlite3_mprintf("%s", why);
        return SQLITE_ERROR;
    }
    return sql_places(world, &call, &mine->places, &mine->count) == PHONE_MEMORY ? SQLITE_NOMEM : SQLITE_OK;
}

static int find_next(sqlite3_vtab_cursor *cursor) { return ((find_cursor *)cursor)->at++, SQLITE_OK; }
static int find_eof(sqlite3_vtab_cursor *cursor) {
    const find_cursor *mine = (const find_cursor *)cursor;
    return mine->at >= mine->count;
}
static int find_row(sqlite3_vtab_cursor *cursor, sqlite3_int64 *row) {
    return *row = (sqlite3_int64)((find_cursor *)cursor)->at, SQLITE_OK;
}

static int find_column(sqlite3_vtab_cursor *cursor, sqlite3_context *context, int column) {
    const find_cursor *mine = (const find_cursor *)cursor;
    const phone_place *it = &mine->places[mine->at];
    sql_call call = {SQL_E164, {mine->text.at + it->start, it->end - it->start}, mine->region, {0}};
    sql_answer answer;
    phone_handle *world;
    if (!call.region.at) call.region = (sql_text){"", 0};
    switch (column) {
    case START_COLUMN:
        sqlite3_result_int64(context, 1 + (sqlite3_int64)sql_characters(mine->text.at, it->start));
        break;
    case LENGTH_COLUMN:
        sqlite3_result_int64(context, (sqlite3_int64)sql_characters(call.text.at, call.text.len));
        break;
    case FOUND_COLUMN:
        sqlite3_result_text64(context, call.text.at, call.text.len, SQLITE_TRANSIENT, SQLITE_UTF8);
        break;
    case KEY_COLUMN:
        if (!(world = world_of_thread(context))) break;
        sql_ask(world, &call, &answer);
        give(context, &answer);
        sql_end(&answer);
        break;
    }
    return SQLITE_OK;
}

static const sqlite3_module FIND = {
    .xConnect = find_connect, .xDisconnect = parts_disconnect, .xBestIndex = find_best, .xOpen = find_open,
    .xClose = find_close, .xFilter = find_filter, .xNext = find_next, .xEof = find_eof, .xColumn = find_column,
    .xRowid = find_row};

#define OF_TEXT (SQLITE_UTF8 | SQLITE_DETERMINISTIC | SQLITE_INNOCUOUS)
typedef struct {
    const char *name;
    int count, flags;
    void (*body)(sqlite3_context *, int, sqlite3_value **);
    sql_question question;
} sql_function;
static const sql_function FUNCTIONS[] = {
    {"phone_e164", 1, OF_TEXT, ask, SQL_E164},         {"phone_e164", 2, OF_TEXT, ask, SQL_E164},
    {"phone_format", 3, OF_TEXT, ask, SQL_FORMAT},     {"phone_type", 1, OF_TEXT, ask, SQL_TYPE},
    {"phone_type", 2, OF_TEXT, ask, SQL_TYPE},         {"phone_region", 1, OF_TEXT, ask, SQL_REGION},
    {"phone_region", 2, OF_TEXT, ask, SQL_REGION},     {"phone_is_valid", 1, OF_TEXT, ask, SQL_IS_VALID},
    {"phone_is_valid", 2, OF_TEXT, ask, SQL_IS_VALID}, {"phone_refusal", 1, OF_TEXT, ask, SQL_REFUSAL},
    {"phone_refusal", 2, OF_TEXT, ask, SQL_REFUSAL},   {"phone_refusal", 3, OF_TEXT, ask, SQL_REFUSAL},
    {"phone_calling_code", 1, OF_TEXT, ask, SQL_CODE}, {"phone_calling_code", 2, OF_TEXT, ask, SQL_CODE},
    {"phone_national_number", 1, OF_TEXT, ask, SQL_NATIONAL}, {"phone_national_number", 2, OF_TEXT, ask, SQL_NATIONAL},
    {"phone_possibility", 1, OF_TEXT, ask, SQL_POSSIBILITY}, {"phone_possibility", 2, OF_TEXT, ask, SQL_POSSIBILITY},
    {"phone_is_valid_for", 3, OF_TEXT, ask, SQL_IS_VALID_FOR},
    {"phone_area_length", 1, OF_TEXT, ask, SQL_AREA_LENGTH}, {"phone_area_length", 2, OF_TEXT, ask, SQL_AREA_LENGTH},
    {"phone_match", 2, OF_TEXT, match, SQL_MATCH},
    {"phone_table_version", 0, SQLITE_UTF8 | SQLITE_INNOCUOUS, table_version, SQL_REFUSAL}};

#ifdef __GNUC__
__attribute__((visibility("default")))
#endif
int sqlite3_phonenumber_init(sqlite3 *db, char **error, const sqlite3_api_routines *api) {
    int status = SQLITE_OK;
    SQLITE_EXTENSION_INIT2(api);
    for (size_t i = 0; status == SQLITE_OK && i < sizeof FUNCTIONS / sizeof *FUNCTIONS; i++) {
        const sql_function *it = &FUNCTIONS[i];
        status = sqlite3_create_function_v2(db, it->name, it->count, it->flags, (void *)&it->question, it->body, NULL,
                                            NULL, NULL);
    }
    if (status == SQLITE_OK) status = sqlite3_create_module_v2(db, "phone_parts", &PARTS, NULL, NULL);
    if (status == SQLITE_OK) status = sqlite3_create_module_v2(db, "phone_find", &FIND, NULL, NULL);
    if (status != SQLITE_OK) {
        *error = sqlite3_mprintf("phonenumber: %s", sqlite3_errmsg(db));
        return status;
    }
    /* The library stays, since threads that end close their handles by it. */
    return SQLITE_OK_LOAD_PERMANENTLY;
}
