/* The extension for DuckDB: README.md says what its functions answer. A process has one table, which the
 * first call opens. DuckDB calls a function from all of its threads, with the rows of a chunk each: a call
 * takes a worker, which has a handle of its own on the table, and puts it back, so that none waits for
 * another's. The rows of a chunk are answered by one call of phone_columns, further questions row by row. */
#define DUCKDB_EXTENSION_NAME phonenumber
#include "duckdb_extension.h"
#include <pthread.h>
#include <stdlib.h>
#include <string.h>

#define sql_memory(size) calloc(1, (size) ? (size) : 1)
#define sql_forget(at) free(at)
#define SQL_QUESTIONS_ALONE
#include "sql_common.h"

DUCKDB_EXTENSION_EXTERN

/* The most rows of a chunk. */
#define ROWS 2048
/* So much memory a worker keeps for the next chunk, in bytes, of each sort. */
#define KEPT ((size_t)1 << 20)

/* Memory that grows, all of which was written. */
typedef struct { uint8_t *at; size_t room; } memory;

/* What answers a chunk: a handle, and the column that it is given. */
typedef struct worker {
    phone_handle handle;
    memory texts, regions, out;
    uint64_t text_offsets[ROWS + 1], region_offsets[ROWS + 1];
    /* Which rows have all of their arguments. */
    uint64_t has[ROWS / 64];
    struct worker *next;
} worker;

static pthread_mutex_t lock = PTHREAD_MUTEX_INITIALIZER;
static phone_handle world = PHONE_CLOSED;
static int is_open;
static worker *idle;

static const char NO_MEMORY[] = "out of memory";

/* Grows memory to this many bytes. 0: it was refused. */
static int grow(memory *it, size_t room) {
    if (it->at && room <= it->room) return 1;
    free(it->at);
    it->at = sql_memory(room);
    it->room = it->at ? room : 0;
    return it->at != NULL;
}

static void shrink(memory *it) {
    if (it->room <= KEPT) return;
    free(it->at);
    it->at = NULL;
    it->room = 0;
}

/* A new worker, under the lock. NULL: there is none, and why stands in `why`. */
static worker *begin(char *why, size_t why_len) {
    const char *path = getenv("PHONE_TABLE");
    worker *mine;
    if (!is_open && !(is_open = sql_open(path ? path : "", &world, why, why_len))) return NULL;
    mine = sql_memory(sizeof *mine);
    if (mine && phone_share(&world, &mine->handle) == PHONE_OK) return mine;
    free(mine);
    snprintf(why, why_len, NO_MEMORY);
    return NULL;
}

static worker *take(char *why, size_t why_len) {
    worker *mine;
    pthread_mutex_lock(&lock);
    mine = idle;
    if (mine) idle = mine->next;
    else mine = begin(why, why_len);
    pthread_mutex_unlock(&lock);
    return mine;
}

static void put_back(worker *mine) {
    shrink(&mine->texts);
    shrink(&mine->regions);
    shrink(&mine->out);
    pthread_mutex_lock(&lock);
    mine->next = idle;
    idle = mine;
    pthread_mutex_unlock(&lock);
}

/* The words of each status and each kind, which are the same for ever. */
typedef struct { char at[64]; size_t len; } word;
#define STATUSES 64
static word refusals[STATUSES], kinds[PHONE_KIND_UNKNOWN + 1];
static pthread_once_t once = PTHREAD_ONCE_INIT;
static void read_words(void) {
    for (uint32_t i = 0; i < STATUSES; i++)
        phone_status_words(i, (uint8_t *)refusals[i].at, sizeof refusals[i].at, &refusals[i].len);
    for (uint32_t i = 0; i <= PHONE_KIND_UNKNOWN; i++)
        phone_word(PHONE_KIND_WORDS, i, (uint8_t *)kinds[i].at, sizeof kinds[i].at, &kinds[i].len);
}

static int is_set(const uint64_t *bits, idx_t at) { return bits[at / 64] >> (at % 64) & 1; }

/* What a chunk's rows are answered: of each column that was asked for, where it begins, else NULL. */
typedef struct {
    const uint64_t *offsets[4];
    const uint8_t *texts[4];
    const uint8_t *kinds, *regions, *validity, *refusals;
    const uint16_t *codes;
    /* Which rows have a number. */
    const uint8_t *numbers;
} answers;

static int is_number(const answers *of, idx_t row) { return of->numbers[row / 8] >> (row % 8) & 1; }

/* Says where the columns stand that were written to a worker's memory. */
static void look(const worker *mine, const uint32_t *columns, size_t count, const phone_place *places,
                 answers *of) {
    memset(of, 0, sizeof *of);
    for (size_t i = 0; i < count; i++) {
        const uint8_t *at = mine->out.at + places->start;
        switch (columns[i]) {
        case PHONE_COLUMN_CODE: of->codes = (const uint16_t *)at; break;
        case PHONE_COLUMN_KIND: of->kinds = at; break;
        case PHONE_COLUMN_REGION: of->regions = at; break;
        case PHONE_COLUMN_VALIDITY: of->validity = at; break;
        case PHONE_COLUMN_REFUSAL: of->refusals = at; break;
        case PHONE_COLUMN_IS_NUMBER: of->numbers = at; break;
        default:
            of->offsets[columns[i]] = (const uint64_t *)at;
            places++;
            of->texts[columns[i]] = mine->out.at + places->start;
        }
        places++;
    }
}

/* The most columns that are asked for at once. */
#define COLUMNS 10

/* Answers texts under their hints, by these columns. The answers stand until the worker's next call. */
static phone_status read_column(worker *mine, const phone_texts *texts, const phone_texts *hints,
                                const uint32_t *columns, size_t count, answers *of) {
    phone_place places[2 * COLUMNS] = {{0}};
    size_t wrote = 40 * ROWS * count;
    phone_status status;
    do {
        if (!grow(&mine->out, wrote + wrote / 8)) return PHONE_MEMORY;
        status = phone_columns(&mine->handle, texts, hints, columns, count, places, 2 * COLUMNS, mine->out.at,
                               mine->out.room, &wrote);
    } while (status == PHONE_TOO_SMALL);
    if (status == PHONE_OK) look(mine, columns, count, places, of);
    return status;
}

/* Lays the texts of a vector's rows side by side, of those rows that have all of their arguments. 0: memory
 * was refused. */
static int gather(duckdb_vector vector, const uint64_t *has, idx_t rows, memory *bytes, uint64_t *offsets) {
    duckdb_string_t *strings = duckdb_vector_get_data(vector);
    offsets[0] = 0;
    for (idx_t i = 0; i < rows; i++)
        offsets[i + 1] = offsets[i] + (is_set(has, i) ? duckdb_string_t_length(strings[i]) : 0);
    if (!grow(bytes, offsets[rows])) return 0;
    for (idx_t i = 0; i < rows; i++)
        if (offsets[i + 1] > offsets[i])
            memcpy(bytes->at + offsets[i], duckdb_string_t_data(&strings[i]), offsets[i + 1] - offsets[i]);
    return 1;
}

/* Notes which rows of a chunk have all of their arguments. */
static void look_for_nulls(duckdb_data_chunk chunk, uint64_t *has) {
    idx_t columns = duckdb_data_chunk_get_column_count(chunk);
    idx_t words = (duckdb_data_chunk_get_size(chunk) + 63) / 64;
    memset(has, 0xff, ROWS / 8);
    for (idx_t i = 0; i < columns; i++) {
        const uint64_t *valid = duckdb_vector_get_validity(duckdb_data_chunk_get_vector(chunk, i));
        for (idx_t at = 0; valid && at < words; at++) has[at] &= valid[at];
    }
}

/* Answers the rows of a chunk, whose first two vectors are texts and regions. */
static phone_status read_chunk(worker *mine, duckdb_data_chunk chunk, const uint32_t *columns, size_t count,
                               answers *of) {
    idx_t rows = duckdb_data_chunk_get_size(chunk);
    duckdb_vector given = duckdb_data_chunk_get_vector(chunk, 0);
    duckdb_vector where = duckdb_data_chunk_get_vector(chunk, 1);
    phone_texts texts, hints;
    if (!gather(given, mine->has, rows, &mine->texts, mine->text_offsets) ||
        !gather(where, mine->has, rows, &mine->regions, mine->region_offsets)) return PHONE_MEMORY;
    texts = phone_texts_of(mine->text_offsets, rows, mine->texts.at, (const uint8_t *)mine->has, 0);
    hints = phone_texts_of(mine->region_offsets, rows, mine->regions.at, NULL, 0);
    return read_column(mine, &texts, &hints, columns, count, of);
}

static void put_null(duckdb_vector out, idx_t row) {
    duckdb_vector_ensure_validity_writable(out);
    duckdb_validity_set_row_invalid(duckdb_vector_get_validity(out), row);
}

static void put_text(duckdb_vector out, idx_t row, const void *at, size_t len) {
    duckdb_vector_assign_string_element_len(out, row, at, len);
}

/* Puts the words of a refusal. */
static void put_word(duckdb_vector out, idx_t row, phone_status why) {
    const word *words = &refusals[why % STATUSES];
    put_text(out, row, words->at, words->len);
}

static void put_mode(const answers *of, uint32_t mode, idx_t row, duckdb_vector out, idx_t to) {
    const uint64_t *offsets = of->offsets[mode];
    put_text(out, to, of->texts[mode] + offsets[row], offsets[row + 1] - offsets[row]);
}

/* What is told of a number: its name in the struct, its type, and the column that tells it. Behind FIELDS
 * stand further questions. */
typedef enum {
    E164, INTERNATIONAL, NATIONAL, RFC3966, CODE, TYPE, REGION, IS_VALID, REFUSAL, FIELDS, NATIONAL_NUMBER, POSSIBILITY,
    IS_VALID_FOR, AREA_LENGTH, MATCH
} field;
static const struct { const char *name; duckdb_type type; uint32_t column; } FIELD[FIELDS] = {
    {"e164", DUCKDB_TYPE_VARCHAR, PHONE_COLUMN_E164},
    {"international", DUCKDB_TYPE_VARCHAR, PHONE_COLUMN_INTERNATIONAL},
    {"national", DUCKDB_TYPE_VARCHAR, PHONE_COLUMN_NATIONAL},
    {"rfc3966", DUCKDB_TYPE_VARCHAR, PHONE_COLUMN_RFC3966},
    {"code", DUCKDB_TYPE_USMALLINT, PHONE_COLUMN_CODE},
    {"type", DUCKDB_TYPE_VARCHAR, PHONE_COLUMN_KIND},
    {"region", DUCKDB_TYPE_VARCHAR, PHONE_COLUMN_REGION},
    {"is_valid", DUCKDB_TYPE_BOOLEAN, PHONE_COLUMN_VALIDITY},
    {"refusal", DUCKDB_TYPE_VARCHAR, PHONE_COLUMN_REFUSAL}};

/* Puts what is told of a row's number, to a row of a vector. */
static void put_field(field which, const answers *of, idx_t row, duckdb_vector out, idx_t to) {
    const uint8_t *region;
    const word *kind;
    switch (which) {
    case CODE: ((uint16_t *)duckdb_vector_get_data(out))[to] = of->codes[row]; break;
    case TYPE:
        kind = &kinds[of->kinds[row] <= PHONE_KIND_UNKNOWN ? of->kinds[row] : PHONE_KIND_UNKNOWN];
        put_text(out, to, kind->at, kind->len);
        break;
    case REGION:
        region = of->regions + 2 * row;
        if (*region) put_text(out, to, region, 2);
        else put_null(out, to);
        break;
    case IS_VALID: ((bool *)duckdb_vector_get_data(out))[to] = of->validity[row] != 0; break;
    case REFUSAL: put_null(out, to); break;
    default: put_mode(of, FIELD[which].column, row, out, to);
    }
}

/* Puts a field of each row; NULL where an argument isn't there, and where there is no number, but for why. */
static void put_column(field which, const worker *mine, const answers *of, duckdb_vector out, idx_t rows) {
    for (idx_t row = 0; row < rows; row++)
        if (!is_set(mine->has, row)) put_null(out, row);
        else if (is_number(of, row)) put_field(which, of, row, out, row);
        else if (which == REFUSAL) put_word(out, row, of->refusals[row]);
        else put_null(out, row);
}

/* A call's body: the worker has the chunk's nulls. */
typedef phone_status (*body)(worker *mine, field which, duckdb_data_chunk chunk, duckdb_vector out);

/* A field of the answers. */
static phone_status tell(worker *mine, field which, duckdb_data_chunk chunk, duckdb_vector out) {
    uint32_t columns[] = {PHONE_COLUMN_IS_NUMBER, FIELD[which].column};
    answers of;
    phone_status status = read_chunk(mine, chunk, columns, 2, &of);
    if (status == PHONE_OK) put_column(which, mine, &of, out, duckdb_data_chunk_get_size(chunk));
    return status;
}

/* All fields, as a struct. */
static phone_status tell_all(worker *mine, field which, duckdb_data_chunk chunk, duckdb_vector out) {
    uint32_t columns[FIELDS + 1] = {PHONE_COLUMN_IS_NUMBER};
    idx_t rows = duckdb_data_chunk_get_size(chunk);
    answers of;
    phone_status status;
    (void)which;
    for (int i = 0; i < FIELDS; i++) columns[i + 1] = FIELD[i].column;
    status = read_chunk(mine, chunk, columns, FIELDS + 1, &of);
    if (status != PHONE_OK) return status;
    for (int i = 0; i < FIELDS; i++)
        put_column((field)i, mine, &of, duckdb_struct_vector_get_child(out, (idx_t)i), rows);
    for (idx_t row = 0; row < rows; row++)
        if (!is_set(mine->has, row)) put_null(out, row);
    return status;
}

static sql_text text_of(duckdb_string_t *string) {
    sql_text text = {duckdb_string_t_data(string), duckdb_string_t_length(*string)};
    return text;
}

/* No mode has this number. */
#define NO_MODE 4

/* The mode that a row names. */
static uint32_t mode_of(duckdb_string_t *name) {
    uint32_t mode = NO_MODE;
    return sql_mode(text_of(name), &mode) ? mode : NO_MODE;
}

/* Puts the text of a row's number in a mode, or why there is none. */
static void put_formatted(field which, const answers *of, uint32_t mode, duckdb_vector out, idx_t row) {
    phone_status why = PHONE_OK;
    if (!is_number(of, row)) why = of->refusals[row];
    else if (mode == NO_MODE) why = PHONE_NO_MODE;
    else if (of->offsets[mode][row] == of->offsets[mode][row + 1]) why = PHONE_UNKNOWN_CODE;
    if (which == REFUSAL && why != PHONE_OK) put_word(out, row, why);
    else if (which == REFUSAL || why != PHONE_OK) put_null(out, row);
    else put_mode(of, mode, row, out, row);
}

/* The text in the mode that a row names, or why there is none. Each mode that is named is a column. */
static phone_status format(worker *mine, field which, duckdb_data_chunk chunk, duckdb_vector out) {
    duckdb_string_t *names = duckdb_vector_get_data(duckdb_data_chunk_get_vector(chunk, 2));
    uint32_t columns[6] = {PHONE_COLUMN_IS_NUMBER, PHONE_COLUMN_REFUSAL};
    idx_t rows = duckdb_data_chunk_get_size(chunk);
    uint8_t modes[ROWS], is_named[NO_MODE + 1] = {0};
    size_t count = 2;
    answers of;
    phone_status status;
    for (idx_t row = 0; row < rows; row++)
        if (is_set(mine->has, row)) is_named[modes[row] = (uint8_t)mode_of(&names[row])] = 1;
    for (uint32_t mode = 0; mode < NO_MODE; mode++)
        if (is_named[mode]) columns[count++] = mode;
    status = read_chunk(mine, chunk, columns, count, &of);
    for (idx_t row = 0; status == PHONE_OK && row < rows; row++)
        if (is_set(mine->has, row)) put_formatted(which, &of, modes[row], out, row);
        else put_null(out, row);
    return status;
}

/* The further questions, and the type of what each is answered. */
static const struct { sql_question question; duckdb_type type; } FURTHER[] = {
    [NATIONAL_NUMBER] = {SQL_NATIONAL, DUCKDB_TYPE_VARCHAR},
    [POSSIBILITY] = {SQL_POSSIBILITY, DUCKDB_TYPE_VARCHAR},
    [IS_VALID_FOR] = {SQL_IS_VALID_FOR, DUCKDB_TYPE_BOOLEAN},
    [AREA_LENGTH] = {SQL_AREA_LENGTH, DUCKDB_TYPE_INTEGER},
    [MATCH] = {SQL_MATCH, DUCKDB_TYPE_VARCHAR}};

/* Puts an answer to a row of a vector. */
static phone_status put_answer(const sql_answer *answer, duckdb_vector out, idx_t row) {
    switch (answer->kind) {
    case SQL_TEXT: put_text(out, row, answer->text.at, answer->text.len); break;
    case SQL_TRUTH: ((bool *)duckdb_vector_get_data(out))[row] = answer->truth != 0; break;
    case SQL_NUMBER: ((int32_t *)duckdb_vector_get_data(out))[row] = answer->number; break;
    case SQL_NOTHING: put_null(out, row); break;
    case SQL_NO_MEMORY: return PHONE_MEMORY;
    }
    return PHONE_OK;
}

/* A further question of each row: of a text under its region; of that and the id of a region; of two texts. */
static phone_status ask(worker *mine, field which, duckdb_data_chunk chunk, duckdb_vector out) {
    duckdb_string_t *strings[3] = {NULL};
    phone_status status = PHONE_OK;
    idx_t rows = duckdb_data_chunk_get_size(chunk), count = duckdb_data_chunk_get_column_count(chunk);
    for (idx_t i = 0; i < count; i++)
        strings[i] = duckdb_vector_get_data(duckdb_data_chunk_get_vector(chunk, i));
    for (idx_t row = 0; row < rows && status == PHONE_OK; row++) {
        sql_call asked = {FURTHER[which].question, {NULL, 0}, {NULL, 0}, {NULL, 0}};
        sql_answer answer;
        if (!is_set(mine->has, row)) {
            put_null(out, row);
            continue;
        }
        asked.text = text_of(&strings[0][row]);
        asked.region = text_of(&strings[1][row]);
        if (count > 2) asked.mode = text_of(&strings[2][row]);
        sql_ask(&mine->handle, &asked, &answer);
        status = put_answer(&answer, out, row);
        sql_end(&answer);
    }
    return status;
}

/* What is told of a number in a text: where it stands, in characters from 1, its text, and some fields. */
#define FOUND 6
static const field FOUND_FIELD[FOUND] = {FIELDS, FIELDS, E164, TYPE, REGION, IS_VALID};
static const struct { const char *name; duckdb_type type; } FOUND_COLUMN[FOUND] = {
    {"position", DUCKDB_TYPE_BIGINT}, {"found", DUCKDB_TYPE_VARCHAR},  {"e164", DUCKDB_TYPE_VARCHAR},
    {"type", DUCKDB_TYPE_VARCHAR},    {"region", DUCKDB_TYPE_VARCHAR}, {"is_valid", DUCKDB_TYPE_BOOLEAN}};

/* A text in which numbers are sought, and how far its places are told: the characters before a byte of it. */
typedef struct {
    sql_text text, region;
    uint32_t leniency;
    size_t byte, characters;
} sought;

/* No leniency has this number. */
#define NO_LENIENCY 2

/* The leniency of a name. */
static uint32_t leniency_of(const char *name, size_t len) {
    if (len == 5 && memcmp(name, "valid", 5) == 0) return PHONE_IF_VALID;
    if (len == 8 && memcmp(name, "possible", 8) == 0) return PHONE_IF_POSSIBLE;
    return NO_LENIENCY;
}

/* Finds where numbers stand in a text. */
static phone_status find_places(phone_handle *handle, const sought *in, memory *places, size_t *count) {
    const uint8_t *text = phone_text(in->text.at, in->text.len);
    const uint8_t *region = phone_text(in->region.at, in->region.len);
    phone_status status;
    *count = 16;
    do {
        if (!grow(places, *count * sizeof(phone_place))) return PHONE_MEMORY;
        status = phone_find(handle, region, in->region.len, in->leniency, text, in->text.len,
                            (phone_place *)places->at, places->room / sizeof(phone_place), count);
    } while (status == PHONE_TOO_SMALL);
    return status;
}

/* The place of a byte in a text, in characters from 1. Bytes are asked for in their order. */
static int64_t position_of(sought *in, size_t byte) {
    for (; in->byte < byte; in->byte++) in->characters += (in->text.at[in->byte] & 0xc0) != 0x80;
    return (int64_t)in->characters + 1;
}

/* Reads what stands at some places, ROWS at most, as numbers. */
static phone_status read_places(worker *mine, const sought *in, const phone_place *places, size_t count,
                                answers *of) {
    static const uint32_t columns[] = {PHONE_COLUMN_IS_NUMBER, PHONE_COLUMN_E164, PHONE_COLUMN_KIND,
                                       PHONE_COLUMN_REGION, PHONE_COLUMN_VALIDITY};
    phone_texts texts, hint = phone_one_hint(in->region.at, in->region.len);
    uint64_t *offsets = mine->text_offsets;
    offsets[0] = 0;
    for (size_t i = 0; i < count; i++) offsets[i + 1] = offsets[i] + places[i].end - places[i].start;
    if (!grow(&mine->texts, offsets[count])) return PHONE_MEMORY;
    for (size_t i = 0; i < count; i++)
        memcpy(mine->texts.at + offsets[i], in->text.at + places[i].start, places[i].end - places[i].start);
    texts = phone_texts_of(offsets, count, mine->texts.at, NULL, 0);
    return read_column(mine, &texts, &hint, columns, sizeof columns / sizeof *columns, of);
}

/* Puts some places and their numbers to the rows of vectors from `to` on. */
static void put_places(sought *in, const phone_place *places, size_t count, const answers *of,
                       duckdb_vector *out, idx_t to) {
    for (size_t i = 0; i < count; i++, to++) {
        const phone_place at = places[i];
        ((int64_t *)duckdb_vector_get_data(out[0]))[to] = position_of(in, at.start);
        put_text(out[1], to, in->text.at + at.start, at.end - at.start);
        for (int k = 2; k < FOUND; k++)
            if (is_number(of, i)) put_field(FOUND_FIELD[k], of, i, out[k], to);
            else put_null(out[k], to);
    }
}

/* Reads some places, and puts them. */
static phone_status tell_places(worker *mine, sought *in, const phone_place *places, size_t count,
                                duckdb_vector *out, idx_t to) {
    answers of;
    phone_status status = count ? read_places(mine, in, places, count, &of) : PHONE_OK;
    if (status == PHONE_OK) put_places(in, places, count, &of, out, to);
    return status;
}

/* Puts the numbers of a text behind those of others in a vector of lists, as a row's list. A text under an
 * unknown region, or leniency, has no list. */
static phone_status tell_list(worker *mine, sought *in, memory *places, duckdb_vector out, idx_t row) {
    duckdb_list_entry *entry = (duckdb_list_entry *)duckdb_vector_get_data(out) + row;
    duckdb_vector child, children[FOUND];
    size_t count = 0, each;
    phone_status status = find_places(&mine->handle, in, places, &count);
    entry->offset = duckdb_list_vector_get_size(out);
    entry->length = 0;
    if (status == PHONE_NO_REGION || status == PHONE_NO_LENIENCY) return put_null(out, row), PHONE_OK;
    if (status != PHONE_OK) return status;
    entry->length = count;
    if (duckdb_list_vector_reserve(out, entry->offset + count) == DuckDBError ||
        duckdb_list_vector_set_size(out, entry->offset + count) == DuckDBError) return PHONE_MEMORY;
    child = duckdb_list_vector_get_child(out);
    for (idx_t k = 0; k < FOUND; k++) children[k] = duckdb_struct_vector_get_child(child, k);
    for (size_t at = 0; at < count && status == PHONE_OK; at += each) {
        each = count - at < ROWS ? count - at : ROWS;
        status = tell_places(mine, in, (phone_place *)places->at + at, each, children, entry->offset + at);
    }
    return status;
}

/* The numbers in each row's text, as a list. */
static phone_status find_all(worker *mine, field which, duckdb_data_chunk chunk, duckdb_vector out) {
    duckdb_string_t *strings[3] = {NULL};
    memory places = {NULL, 0};
    phone_status status = PHONE_OK;
    idx_t rows = duckdb_data_chunk_get_size(chunk), count = duckdb_data_chunk_get_column_count(chunk);
    (void)which;
    for (idx_t i = 0; i < count; i++)
        strings[i] = duckdb_vector_get_data(duckdb_data_chunk_get_vector(chunk, i));
    for (idx_t row = 0; row < rows && status == PHONE_OK; row++) {
        sought in = {{NULL, 0}, {NULL, 0}, PHONE_IF_VALID, 0, 0};
        if (!is_set(mine->has, row)) {
            ((duckdb_list_entry *)duckdb_vector_get_data(out))[row] = (duckdb_list_entry){0, 0};
            put_null(out, row);
            continue;
        }
        in.text = text_of(&strings[0][row]);
        in.region = text_of(&strings[1][row]);
        if (count > 2) {
            sql_text name = text_of(&strings[2][row]);
            in.leniency = leniency_of(name.at, name.len);
        }
        status = tell_list(mine, &in, &places, out, row);
    }
    free(places.at);
    return status;
}

/* Tells the version of the table that is open, or the file of the one that PHONE_TABLE names. */
static phone_status tell_version(worker *mine, field which, duckdb_data_chunk chunk, duckdb_vector out) {
    (void)mine, (void)which;
    for (idx_t row = 0; row < duckdb_data_chunk_get_size(chunk); row++)
        put_text(out, row, sql_version, strlen(sql_version));
    return PHONE_OK;
}

/* The functions over columns. */
typedef struct { const char *name; int count; field which; body answer; } function;
static const function FUNCTIONS[] = {
    {"phone_e164", 2, E164, tell},       {"phone_type", 2, TYPE, tell},
    {"phone_region", 2, REGION, tell},   {"phone_is_valid", 2, IS_VALID, tell},
    {"phone_refusal", 2, REFUSAL, tell}, {"phone_refusal", 3, REFUSAL, format},
    {"phone_format", 3, E164, format},   {"phone", 2, FIELDS, tell_all},
    {"phone_calling_code", 2, CODE, tell},
    {"phone_national_number", 2, NATIONAL_NUMBER, ask},
    {"phone_possibility", 2, POSSIBILITY, ask},
    {"phone_is_valid_for", 3, IS_VALID_FOR, ask},
    {"phone_area_length", 2, AREA_LENGTH, ask},
    {"phone_match", 2, MATCH, ask},
    {"phone_find", 2, FIELDS, find_all}, {"phone_find", 3, FIELDS, find_all},
    {"phone_table_version", 0, FIELDS, tell_version}};

#define COUNT (sizeof FUNCTIONS / sizeof *FUNCTIONS)

/* The words of why a call has no answer. */
static const char *words_of(phone_status status) { return refusals[status % STATUSES].at; }

static void call(duckdb_function_info info, duckdb_data_chunk chunk, duckdb_vector out) {
    const function *it = duckdb_scalar_function_get_extra_info(info);
    char why[1024];
    worker *mine = take(why, sizeof why);
    phone_status status;
    if (!mine) {
        duckdb_scalar_function_set_error(info, why);
        return;
    }
    look_for_nulls(chunk, mine->has);
    status = it->answer(mine, it->which, chunk, out);
    put_back(mine);
    if (status != PHONE_OK) duckdb_scalar_function_set_error(info, words_of(status));
}

/* The table function: what is sought, for a call's life; and the places that were found, for its run's. */
typedef struct { sought in; int is_null; } search;
typedef struct { sought in; memory places; size_t count, at; } run;

static void end_search(void *it) {
    search *ended = it;
    duckdb_free((void *)ended->in.text.at);
    duckdb_free((void *)ended->in.region.at);
    free(ended);
}

static void end_run(void *it) {
    free(((run *)it)->places.at);
    free(it);
}

/* The text of a parameter, which duckdb_free frees. `at` is NULL where it isn't there. */
static sql_text taken(duckdb_value value) {
    sql_text text = {NULL, 0};
    if (value && !duckdb_is_null_value(value)) text.at = duckdb_get_varchar(value);
    text.len = text.at ? strlen(text.at) : 0;
    duckdb_destroy_value(&value);
    return text;
}

/* A named parameter; the default where it isn't given. */
static sql_text named(duckdb_bind_info info, const char *name) {
    duckdb_value value = duckdb_bind_get_named_parameter(info, name);
    sql_text none = {NULL, 0};
    return value ? taken(value) : none;
}

static void add_found_columns(duckdb_bind_info info) {
    for (int i = 0; i < FOUND; i++) {
        duckdb_logical_type type = duckdb_create_logical_type(FOUND_COLUMN[i].type);
        duckdb_bind_add_result_column(info, FOUND_COLUMN[i].name, type);
        duckdb_destroy_logical_type(&type);
    }
}

static void bind_find(duckdb_bind_info info) {
    search *it = sql_memory(sizeof *it);
    sql_text leniency;
    if (!it) {
        duckdb_bind_set_error(info, NO_MEMORY);
        return;
    }
    it->in.text = taken(duckdb_bind_get_parameter(info, 0));
    it->in.region = named(info, "region");
    leniency = named(info, "leniency");
    it->in.leniency = leniency.at ? leniency_of(leniency.at, leniency.len) : PHONE_IF_VALID;
    it->is_null = !it->in.text.at;
    duckdb_free((void *)leniency.at);
    add_found_columns(info);
    duckdb_bind_set_bind_data(info, it, end_search);
}

static void init_find(duckdb_init_info info) {
    const search *of = duckdb_init_get_bind_data(info);
    run *it = sql_memory(sizeof *it);
    char why[1024] = "";
    worker *mine = it ? take(why, sizeof why) : NULL;
    phone_status status = PHONE_MEMORY;
    if (mine) {
        it->in = of->in;
        status = of->is_null ? PHONE_OK : find_places(&mine->handle, &it->in, &it->places, &it->count);
        put_back(mine);
    }
    if (status != PHONE_OK) duckdb_init_set_error(info, *why ? why : words_of(status));
    if (it) duckdb_init_set_init_data(info, it, end_run);
}

static void run_find(duckdb_function_info info, duckdb_data_chunk out) {
    run *it = duckdb_function_get_init_data(info);
    size_t count = it->count - it->at < ROWS ? it->count - it->at : ROWS;
    duckdb_vector vectors[FOUND];
    char why[1024];
    worker *mine = take(why, sizeof why);
    phone_status status;
    if (!mine) {
        duckdb_function_set_error(info, why);
        return;
    }
    for (idx_t k = 0; k < FOUND; k++) vectors[k] = duckdb_data_chunk_get_vector(out, k);
    status = tell_places(mine, &it->in, (phone_place *)it->places.at + it->at, count, vectors, 0);
    put_back(mine);
    it->at += count;
    if (status != PHONE_OK) duckdb_function_set_error(info, words_of(status));
    else duckdb_data_chunk_set_size(out, count);
}

/* The type of what a function answers. */
static duckdb_logical_type struct_of(const char **names, const duckdb_type *types, idx_t count) {
    duckdb_logical_type members[FIELDS], whole;
    for (idx_t i = 0; i < count; i++) members[i] = duckdb_create_logical_type(types[i]);
    whole = duckdb_create_struct_type(members, names, count);
    for (idx_t i = 0; i < count; i++) duckdb_destroy_logical_type(&members[i]);
    return whole;
}

static duckdb_logical_type type_of(const function *it) {
    const char *names[FIELDS];
    duckdb_type types[FIELDS];
    duckdb_logical_type found, list;
    if (it->answer == tell) return duckdb_create_logical_type(FIELD[it->which].type);
    if (it->answer == ask) return duckdb_create_logical_type(FURTHER[it->which].type);
    if (it->answer == format || it->answer == tell_version) return duckdb_create_logical_type(DUCKDB_TYPE_VARCHAR);
    for (int i = 0; i < FIELDS; i++) names[i] = FIELD[i].name, types[i] = FIELD[i].type;
    if (it->answer == tell_all) return struct_of(names, types, FIELDS);
    for (int i = 0; i < FOUND; i++) names[i] = FOUND_COLUMN[i].name, types[i] = FOUND_COLUMN[i].type;
    found = struct_of(names, types, FOUND);
    list = duckdb_create_list_type(found);
    duckdb_destroy_logical_type(&found);
    return list;
}

static duckdb_scalar_function make_function(const function *it) {
    duckdb_scalar_function made = duckdb_create_scalar_function();
    duckdb_logical_type text = duckdb_create_logical_type(DUCKDB_TYPE_VARCHAR), answer = type_of(it);
    duckdb_scalar_function_set_name(made, it->name);
    for (int i = 0; i < it->count; i++) duckdb_scalar_function_add_parameter(made, text);
    duckdb_scalar_function_set_return_type(made, answer);
    duckdb_scalar_function_set_extra_info(made, (void *)it, NULL);
    duckdb_scalar_function_set_function(made, call);
    duckdb_destroy_logical_type(&answer);
    duckdb_destroy_logical_type(&text);
    return made;
}

/* Registers the function at a place, and those behind it of the same name. */
static duckdb_state add_functions(duckdb_connection connection, size_t at) {
    duckdb_scalar_function_set set = duckdb_create_scalar_function_set(FUNCTIONS[at].name);
    duckdb_state state = DuckDBSuccess;
    for (size_t i = at; i < COUNT; i++)
        if (strcmp(FUNCTIONS[i].name, FUNCTIONS[at].name) == 0) {
            duckdb_scalar_function made = make_function(&FUNCTIONS[i]);
            if (duckdb_add_scalar_function_to_set(set, made) == DuckDBError) state = DuckDBError;
            duckdb_destroy_scalar_function(&made);
        }
    if (state == DuckDBSuccess) state = duckdb_register_scalar_function_set(connection, set);
    duckdb_destroy_scalar_function_set(&set);
    return state;
}

static duckdb_state add_find(duckdb_connection connection) {
    duckdb_table_function made = duckdb_create_table_function();
    duckdb_logical_type text = duckdb_create_logical_type(DUCKDB_TYPE_VARCHAR);
    duckdb_state state;
    duckdb_table_function_set_name(made, "phone_find");
    duckdb_table_function_add_parameter(made, text);
    duckdb_table_function_add_named_parameter(made, "region", text);
    duckdb_table_function_add_named_parameter(made, "leniency", text);
    duckdb_table_function_set_bind(made, bind_find);
    duckdb_table_function_set_init(made, init_find);
    duckdb_table_function_set_function(made, run_find);
    state = duckdb_register_table_function(connection, made);
    duckdb_destroy_logical_type(&text);
    duckdb_destroy_table_function(&made);
    return state;
}

DUCKDB_EXTENSION_ENTRYPOINT(duckdb_connection connection, duckdb_extension_info info,
                            struct duckdb_extension_access *access) {
    duckdb_state state = duckdb_vector_size() <= ROWS ? DuckDBSuccess : DuckDBError;
    pthread_once(&once, read_words);
    for (size_t i = 0; i < COUNT && state == DuckDBSuccess; i++)
        if (!i || strcmp(FUNCTIONS[i].name, FUNCTIONS[i - 1].name) != 0) state = add_functions(connection, i);
    if (state == DuckDBSuccess) state = add_find(connection);
    if (state == DuckDBError) access->set_error(info, "phonenumber: a function can't be registered");
    return state == DuckDBSuccess;
}
