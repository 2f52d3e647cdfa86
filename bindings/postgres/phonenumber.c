/* The extension for PostgreSQL: README.md says what its functions answer. A server process has one
 * table, opened at its first call; where the library is preloaded, the postmaster opens it, and the
 * processes that it forks share its memory. */
#include "postgres.h"
#include "fmgr.h"
#include "funcapi.h"
#include "mb/pg_wchar.h"
#include "miscadmin.h"
#include "utils/builtins.h"
#include "utils/guc.h"
#include "utils/memutils.h"
#if PG_VERSION_NUM >= 160000
#include "varatt.h"
#endif

#define sql_memory(size) \
    palloc_extended((size) ? (size) : 1, MCXT_ALLOC_HUGE | MCXT_ALLOC_NO_OOM | MCXT_ALLOC_ZERO)
#define sql_forget(at) ((at) ? pfree(at) : (void)0)
#include "sql_common.h"
#include "phone_type.h"

PG_MODULE_MAGIC;
void _PG_init(void);

/* The file of the table, or a folder of which a later one than the library's is taken, empty for the one
 * in the library. It is chosen at the start of a server that preloads the library, and nowhere else: an
 * answer is the same as long as a server runs. */
static char *table_path = "";
static bool is_open;
static phone_handle world = PHONE_CLOSED;

/* Opens the table, unless it is open; where it can't be, says so. */
static void open_world(int level) {
    char why[1024] = "";
    if (is_open) return;
    is_open = sql_open(*table_path ? table_path : NULL, &world, why, sizeof why);
    if (!is_open)
        ereport(level, (errcode(ERRCODE_CONFIG_FILE_ERROR), errmsg("%s", why),
                        errhint("The setting phonenumber.table_path names the table.")));
}

/* Says that a table is named where none can be chosen any more. */
static void warn_of_path(void) {
    const char *path = GetConfigOption("phonenumber.table_path", true, false);
    if (path && *path)
        ereport(WARNING, (errmsg("phonenumber.table_path is heeded at the server's start alone"),
                          errhint("Put phonenumber into shared_preload_libraries.")));
}

void _PG_init(void) {
    if (process_shared_preload_libraries_in_progress) {
        DefineCustomStringVariable("phonenumber.table_path", "The file of the table of phone numbers, or the folder of a later one.",
                                   "Once it is another table, what stands on the functions is to be built anew.",
                                   &table_path, "", PGC_POSTMASTER, 0, NULL, NULL, NULL);
        open_world(FATAL);
    } else warn_of_path();
    MarkGUCPrefixReserved("phonenumber");
}

/* The bytes of an argument, which are UTF-8 in a database of UTF8, and may be anything in SQL_ASCII. */
static sql_text text_of(const text *argument) {
    sql_text it;
    it.at = VARDATA_ANY(argument);
    it.len = VARSIZE_ANY_EXHDR(argument);
    return it;
}

/* The table, for a call in a database whose texts are UTF-8, or not told to be anything else. */
static phone_handle *the_world(void) {
    int encoding = GetDatabaseEncoding();
    if (encoding != PG_UTF8 && encoding != PG_SQL_ASCII)
        ereport(ERROR, (errcode(ERRCODE_FEATURE_NOT_SUPPORTED),
                        errmsg("phonenumber wants a database of the encoding UTF8, not %s", GetDatabaseEncodingName())));
    open_world(ERROR);
    return &world;
}

static void no_memory(void) {
    ereport(ERROR, (errcode(ERRCODE_OUT_OF_MEMORY), errmsg("out of memory")));
}

/* The text of a number and its region, which may be NULL or left out for none. */
static void take_text(FunctionCallInfo fcinfo, sql_call *call) {
    call->text = text_of(PG_GETARG_TEXT_PP(0));
    call->region = (sql_text){"", 0};
    if (PG_NARGS() > 1 && !PG_ARGISNULL(1)) call->region = text_of(PG_GETARG_TEXT_PP(1));
}

/* What an answer is to the server; its bytes are given back. */
static Datum datum_of(sql_answer *answer, bool *is_null) {
    Datum result = (Datum)0;
    *is_null = answer->kind == SQL_NOTHING;
    if (answer->kind == SQL_NO_MEMORY) no_memory();
    if (answer->kind == SQL_TRUTH) result = BoolGetDatum(answer->truth != 0);
    if (answer->kind == SQL_NUMBER) result = Int32GetDatum(answer->number);
    if (answer->kind == SQL_TEXT)
        result = PointerGetDatum(cstring_to_text_with_len(answer->text.at, (int)answer->text.len));
    sql_end(answer);
    return result;
}

/* The body of each function of a text. NULL for the text or the mode gives NULL. */
static Datum ask(FunctionCallInfo fcinfo, sql_question question) {
    sql_call call = {question, {0}, {0}, {0}};
    sql_answer answer;
    if (PG_ARGISNULL(0) || (PG_NARGS() > 2 && PG_ARGISNULL(2))) PG_RETURN_NULL();
    take_text(fcinfo, &call);
    if (PG_NARGS() > 2) call.mode = text_of(PG_GETARG_TEXT_PP(2));
    sql_ask(the_world(), &call, &answer);
    return datum_of(&answer, &fcinfo->isnull);
}

/* The body of each function of a value of the type, which are strict. */
static Datum ask_row(FunctionCallInfo fcinfo, sql_question question) {
    sql_call call = {question, {0}, {0}, {0}};
    uint8_t bytes[EXTENSION_DIGITS] = {0};
    phone_number number;
    sql_answer answer;
    if (PG_NARGS() > 1) call.mode = text_of(PG_GETARG_TEXT_PP(1));
    phone_row_number(PG_GETARG_PHONE(0), &number, bytes);
    sql_tell(the_world(), &call, PHONE_OK, &number, bytes, sizeof bytes, &answer);
    return datum_of(&answer, &fcinfo->isnull);
}

#define FUNCTION(name, ask, question) \
    PG_FUNCTION_INFO_V1(name);        \
    Datum name(PG_FUNCTION_ARGS) { return ask(fcinfo, question); }
FUNCTION(sql_phone_e164, ask, SQL_E164)
FUNCTION(sql_phone_format, ask, SQL_FORMAT)
FUNCTION(sql_phone_type, ask, SQL_TYPE)
FUNCTION(sql_phone_region, ask, SQL_REGION)
FUNCTION(sql_phone_is_valid, ask, SQL_IS_VALID)
FUNCTION(sql_phone_refusal, ask, SQL_REFUSAL)
FUNCTION(sql_phone_calling_code, ask, SQL_CODE)
FUNCTION(sql_phone_national_number, ask, SQL_NATIONAL)
FUNCTION(sql_phone_possibility, ask, SQL_POSSIBILITY)
FUNCTION(sql_phone_is_valid_for, ask, SQL_IS_VALID_FOR)
FUNCTION(sql_phone_area_length, ask, SQL_AREA_LENGTH)
FUNCTION(sql_phone_match, ask, SQL_MATCH)
FUNCTION(phone_row_possibility, ask_row, SQL_POSSIBILITY)
FUNCTION(phone_row_is_valid_for, ask_row, SQL_IS_VALID_FOR)
FUNCTION(phone_row_area_length, ask_row, SQL_AREA_LENGTH)
FUNCTION(phone_row_e164, ask_row, SQL_E164)
FUNCTION(phone_row_format, ask_row, SQL_FORMAT)
FUNCTION(phone_row_type, ask_row, SQL_TYPE)
FUNCTION(phone_row_region, ask_row, SQL_REGION)
FUNCTION(phone_row_is_valid, ask_row, SQL_IS_VALID)

/* Reads a text as a number, whose texts then stand in `texts`. */
static phone_status parse(FunctionCallInfo fcinfo, phone_number *number, sql_bytes *texts) {
    sql_call call = {SQL_E164, {0}, {0}, {0}};
    phone_status status;
    take_text(fcinfo, &call);
    memset(number, 0, sizeof *number);
    sql_begin(texts);
    status = sql_parse(the_world(), &call, number, texts);
    if (status == PHONE_MEMORY) no_memory();
    return status;
}

/* phone(text, region): the value that a text is read as; NULL where it is no number. */
PG_FUNCTION_INFO_V1(sql_phone);
Datum sql_phone(PG_FUNCTION_ARGS) {
    phone_row *row;
    phone_number number;
    sql_bytes texts;
    if (PG_ARGISNULL(0) || parse(fcinfo, &number, &texts) != PHONE_OK) PG_RETURN_NULL();
    row = palloc0(sizeof *row);
    if (!phone_row_of(&number, sql_at(&texts), row))
        ereport(ERROR, (errcode(ERRCODE_PROGRAM_LIMIT_EXCEEDED),
                        errmsg("a phone number has no room in a value of type phone")));
    sql_forget(texts.many);
    PG_RETURN_POINTER(row);
}

/* phone_parts(text, region): all that is told of a text, read once. */
PG_FUNCTION_INFO_V1(sql_phone_parts);
Datum sql_phone_parts(PG_FUNCTION_ARGS) {
    Datum values[SQL_PARTS_COUNT + 1];
    bool nulls[SQL_PARTS_COUNT + 1];
    TupleDesc shape;
    phone_number number;
    sql_bytes texts;
    phone_status status;
    if (PG_ARGISNULL(0)) PG_RETURN_NULL();
    if (get_call_result_type(fcinfo, NULL, &shape) != TYPEFUNC_COMPOSITE)
        ereport(ERROR, (errcode(ERRCODE_FEATURE_NOT_SUPPORTED), errmsg("phone_parts gives a row")));
    status = parse(fcinfo, &number, &texts);
    for (int part = 0; part <= SQL_PARTS_COUNT; part++) {
        sql_answer answer;
        sql_part(the_world(), part, status, &number, sql_at(&texts), texts.len, &answer);
        values[part] = datum_of(&answer, &nulls[part]);
    }
    sql_forget(texts.many);
    PG_RETURN_DATUM(HeapTupleGetDatum(heap_form_tuple(BlessTupleDesc(shape), values, nulls)));
}

/* phone_find(text, region): a row for each valid number that stands in a text. */
static void put_found(ReturnSetInfo *set, const sql_call *all, const phone_place *place) {
    sql_call call = {SQL_E164, {all->text.at + place->start, place->end - place->start}, all->region, {0}};
    bool nulls[4] = {false, false, false, false};
    sql_answer answer;
    Datum values[4];
    values[0] = Int32GetDatum(1 + (int32)sql_characters(all->text.at, place->start));
    values[1] = Int32GetDatum((int32)sql_characters(call.text.at, call.text.len));
    values[2] = PointerGetDatum(cstring_to_text_with_len(call.text.at, (int)call.text.len));
    sql_ask(the_world(), &call, &answer);
    values[3] = datum_of(&answer, &nulls[3]);
    tuplestore_putvalues(set->setResult, set->setDesc, values, nulls);
}

PG_FUNCTION_INFO_V1(sql_phone_find);
Datum sql_phone_find(PG_FUNCTION_ARGS) {
    ReturnSetInfo *set = (ReturnSetInfo *)fcinfo->resultinfo;
    sql_call call = {SQL_E164, {0}, {0}, {0}};
    phone_place *places = NULL;
    size_t count = 0;
    phone_status status;
    TupleDesc shape;
    MemoryContext mine;
    if (!set || !IsA(set, ReturnSetInfo) || !(set->allowedModes & SFRM_Materialize) ||
        get_call_result_type(fcinfo, NULL, &shape) != TYPEFUNC_COMPOSITE)
        ereport(ERROR, (errcode(ERRCODE_FEATURE_NOT_SUPPORTED), errmsg("phone_find gives rows")));
    mine = MemoryContextSwitchTo(set->econtext->ecxt_per_query_memory);
    set->returnMode = SFRM_Materialize;
    set->setDesc = CreateTupleDescCopy(shape);
    set->setResult = tuplestore_begin_heap((set->allowedModes & SFRM_Materialize_Random) != 0, false, work_mem);
    MemoryContextSwitchTo(mine);
    if (PG_ARGISNULL(0)) return (Datum)0;
    take_text(fcinfo, &call);
    status = sql_places(the_world(), &call, &places, &count);
    if (status == PHONE_MEMORY) no_memory();
    for (size_t i = 0; status == PHONE_OK && i < count; i++) put_found(set, &call, &places[i]);
    sql_forget(places);
    return (Datum)0;
}

/* The version of the table that is open, or the file of the one that was chosen. */
PG_FUNCTION_INFO_V1(sql_phone_table_version);
Datum sql_phone_table_version(PG_FUNCTION_ARGS) {
    the_world();
    PG_RETURN_TEXT_P(cstring_to_text(sql_version));
}
