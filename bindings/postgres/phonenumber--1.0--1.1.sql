\echo Use "ALTER EXTENSION phonenumber UPDATE" to load this file. \quit

-- The functions of a text: a NULL region means none, as one that is left out does.
CREATE OR REPLACE FUNCTION phone_e164(number text, region text DEFAULT NULL) RETURNS text
    AS 'MODULE_PATHNAME', 'sql_phone_e164' LANGUAGE C IMMUTABLE CALLED ON NULL INPUT PARALLEL SAFE COST 50;
CREATE OR REPLACE FUNCTION phone_format(number text, region text, mode text) RETURNS text
    AS 'MODULE_PATHNAME', 'sql_phone_format' LANGUAGE C IMMUTABLE CALLED ON NULL INPUT PARALLEL SAFE COST 100;
CREATE OR REPLACE FUNCTION phone_type(number text, region text DEFAULT NULL) RETURNS text
    AS 'MODULE_PATHNAME', 'sql_phone_type' LANGUAGE C IMMUTABLE CALLED ON NULL INPUT PARALLEL SAFE COST 100;
CREATE OR REPLACE FUNCTION phone_region(number text, region text DEFAULT NULL) RETURNS text
    AS 'MODULE_PATHNAME', 'sql_phone_region' LANGUAGE C IMMUTABLE CALLED ON NULL INPUT PARALLEL SAFE COST 100;
CREATE OR REPLACE FUNCTION phone_is_valid(number text, region text DEFAULT NULL) RETURNS boolean
    AS 'MODULE_PATHNAME', 'sql_phone_is_valid' LANGUAGE C IMMUTABLE CALLED ON NULL INPUT PARALLEL SAFE COST 100;
CREATE OR REPLACE FUNCTION phone_refusal(number text, region text DEFAULT NULL) RETURNS text
    AS 'MODULE_PATHNAME', 'sql_phone_refusal' LANGUAGE C IMMUTABLE CALLED ON NULL INPUT PARALLEL SAFE COST 50;
CREATE OR REPLACE FUNCTION phone_refusal(number text, region text, mode text) RETURNS text
    AS 'MODULE_PATHNAME', 'sql_phone_refusal' LANGUAGE C IMMUTABLE CALLED ON NULL INPUT PARALLEL SAFE COST 100;

-- The type. Its text needs no table, so what was stored is read back under any.
CREATE TYPE phone;
CREATE FUNCTION phone_in(cstring) RETURNS phone
    AS 'MODULE_PATHNAME', 'phone_in' LANGUAGE C IMMUTABLE STRICT PARALLEL SAFE;
CREATE FUNCTION phone_out(phone) RETURNS cstring
    AS 'MODULE_PATHNAME', 'phone_out' LANGUAGE C IMMUTABLE STRICT PARALLEL SAFE;
CREATE FUNCTION phone_recv(internal) RETURNS phone
    AS 'MODULE_PATHNAME', 'phone_recv' LANGUAGE C IMMUTABLE STRICT PARALLEL SAFE;
CREATE FUNCTION phone_send(phone) RETURNS bytea
    AS 'MODULE_PATHNAME', 'phone_send' LANGUAGE C IMMUTABLE STRICT PARALLEL SAFE;
CREATE TYPE phone (
    INPUT = phone_in, OUTPUT = phone_out, RECEIVE = phone_recv, SEND = phone_send,
    INTERNALLENGTH = 24, ALIGNMENT = double, STORAGE = plain
);
COMMENT ON TYPE phone IS 'a phone number: calling code, national number with its leading zeros, extension';

CREATE FUNCTION phone_lt(phone, phone) RETURNS boolean
    AS 'MODULE_PATHNAME', 'phone_lt' LANGUAGE C IMMUTABLE STRICT PARALLEL SAFE;
CREATE FUNCTION phone_le(phone, phone) RETURNS boolean
    AS 'MODULE_PATHNAME', 'phone_le' LANGUAGE C IMMUTABLE STRICT PARALLEL SAFE;
CREATE FUNCTION phone_eq(phone, phone) RETURNS boolean
    AS 'MODULE_PATHNAME', 'phone_eq' LANGUAGE C IMMUTABLE STRICT PARALLEL SAFE;
CREATE FUNCTION phone_ne(phone, phone) RETURNS boolean
    AS 'MODULE_PATHNAME', 'phone_ne' LANGUAGE C IMMUTABLE STRICT PARALLEL SAFE;
CREATE FUNCTION phone_ge(phone, phone) RETURNS boolean
    AS 'MODULE_PATHNAME', 'phone_ge' LANGUAGE C IMMUTABLE STRICT PARALLEL SAFE;
CREATE FUNCTION phone_gt(phone, phone) RETURNS boolean
    AS 'MODULE_PATHNAME', 'phone_gt' LANGUAGE C IMMUTABLE STRICT PARALLEL SAFE;
CREATE FUNCTION phone_cmp(phone, phone) RETURNS integer
    AS 'MODULE_PATHNAME', 'phone_cmp' LANGUAGE C IMMUTABLE STRICT PARALLEL SAFE;
CREATE FUNCTION phone_hash(phone) RETURNS integer
    AS 'MODULE_PATHNAME', 'phone_hash' LANGUAGE C IMMUTABLE STRICT PARALLEL SAFE;
CREATE FUNCTION phone_hash_extended(phone, bigint) RETURNS bigint
    AS 'MODULE_PATHNAME', 'phone_hash_extended' LANGUAGE C IMMUTABLE STRICT PARALLEL SAFE;

CREATE OPERATOR < (LEFTARG = phone, RIGHTARG = phone, FUNCTION = phone_lt,
    COMMUTATOR = >, NEGATOR = >=, RESTRICT = scalarltsel, JOIN = scalarltjoinsel);
CREATE OPERATOR <= (LEFTARG = phone, RIGHTARG = phone, FUNCTION = phone_le,
    COMMUTATOR = >=, NEGATOR = >, RESTRICT = scalarlesel, JOIN = scalarlejoinsel);
CREATE OPERATOR = (LEFTARG = phone, RIGHTARG = phone, FUNCTION = phone_eq,
    COMMUTATOR = =, NEGATOR = <>, RESTRICT = eqsel, JOIN = eqjoinsel, HASHES, MERGES);
CREATE OPERATOR <> (LEFTARG = phone, RIGHTARG = phone, FUNCTION = phone_ne,
    COMMUTATOR = <>, NEGATOR = =, RESTRICT = neqsel, JOIN = neqjoinsel);
CREATE OPERATOR >= (LEFTARG = phone, RIGHTARG = phone, FUNCTION = phone_ge,
    COMMUTATOR = <=, NEGATOR = <, RESTRICT = scalargesel, JOIN = scalargejoinsel);
CREATE OPERATOR > (LEFTARG = phone, RIGHTARG = phone, FUNCTION = phone_gt,
    COMMUTATOR = <, NEGATOR = <=, RESTRICT = scalargtsel, JOIN = scalargtjoinsel);
CREATE OPERATOR CLASS phone_ops DEFAULT FOR TYPE phone USING btree AS
    OPERATOR 1 <, OPERATOR 2 <=, OPERATOR 3 =, OPERATOR 4 >=, OPERATOR 5 >, FUNCTION 1 phone_cmp(phone, phone);
CREATE OPERATOR CLASS phone_ops DEFAULT FOR TYPE phone USING hash AS
    OPERATOR 1 =, FUNCTION 1 phone_hash(phone), FUNCTION 2 phone_hash_extended(phone, bigint);

-- What is asked of a value.
CREATE FUNCTION phone(number text, region text DEFAULT NULL) RETURNS phone
    AS 'MODULE_PATHNAME', 'sql_phone' LANGUAGE C IMMUTABLE CALLED ON NULL INPUT PARALLEL SAFE COST 50;
COMMENT ON FUNCTION phone(text, text) IS 'the phone number that a text is; NULL where it is none';
CREATE FUNCTION phone_e164(number phone) RETURNS text
    AS 'MODULE_PATHNAME', 'phone_row_e164' LANGUAGE C IMMUTABLE STRICT PARALLEL SAFE COST 10;
COMMENT ON FUNCTION phone_e164(phone) IS 'the E.164 text of a phone number, without its extension';
CREATE FUNCTION phone_format(number phone, mode text) RETURNS text
    AS 'MODULE_PATHNAME', 'phone_row_format' LANGUAGE C IMMUTABLE STRICT PARALLEL SAFE COST 50;
COMMENT ON FUNCTION phone_format(phone, text) IS
    'a phone number in the mode e164, international, national or rfc3966; NULL where its calling code is in no table';
CREATE FUNCTION phone_type(number phone) RETURNS text
    AS 'MODULE_PATHNAME', 'phone_row_type' LANGUAGE C IMMUTABLE STRICT PARALLEL SAFE COST 50;
COMMENT ON FUNCTION phone_type(phone) IS 'the kind of a phone number';
CREATE FUNCTION phone_region(number phone) RETURNS text
    AS 'MODULE_PATHNAME', 'phone_row_region' LANGUAGE C IMMUTABLE STRICT PARALLEL SAFE COST 50;
COMMENT ON FUNCTION phone_region(phone) IS 'the region of a phone number; NULL where it has none';
CREATE FUNCTION phone_is_valid(number phone) RETURNS boolean
    AS 'MODULE_PATHNAME', 'phone_row_is_valid' LANGUAGE C IMMUTABLE STRICT PARALLEL SAFE COST 50;
COMMENT ON FUNCTION phone_is_valid(phone) IS 'whether a phone number is valid';
CREATE FUNCTION phone_calling_code(number phone) RETURNS integer
    AS 'MODULE_PATHNAME', 'phone_calling_code' LANGUAGE C IMMUTABLE STRICT PARALLEL SAFE;
COMMENT ON FUNCTION phone_calling_code(phone) IS 'the calling code of a phone number';
CREATE FUNCTION phone_national_number(number phone) RETURNS text
    AS 'MODULE_PATHNAME', 'phone_national_number' LANGUAGE C IMMUTABLE STRICT PARALLEL SAFE;
COMMENT ON FUNCTION phone_national_number(phone) IS 'the national number, with its leading zeros';
CREATE FUNCTION phone_extension(number phone) RETURNS text
    AS 'MODULE_PATHNAME', 'phone_extension' LANGUAGE C IMMUTABLE STRICT PARALLEL SAFE;
COMMENT ON FUNCTION phone_extension(phone) IS 'the extension of a phone number; NULL where it has none';

-- All of a text at once, which is read once.
CREATE FUNCTION phone_parts(number text, region text DEFAULT NULL, OUT e164 text, OUT international text,
        OUT "national" text, OUT rfc3966 text, OUT type text, OUT number_region text, OUT is_valid boolean, OUT refusal text)
    AS 'MODULE_PATHNAME', 'sql_phone_parts' LANGUAGE C IMMUTABLE CALLED ON NULL INPUT PARALLEL SAFE COST 150;
COMMENT ON FUNCTION phone_parts(text, text) IS
    'the texts, kind, region and validity of a phone number, or why the text is none; NULL where there is no text';

-- The further questions, of a text and of a value.
CREATE FUNCTION phone_calling_code(number text, region text DEFAULT NULL) RETURNS integer
    AS 'MODULE_PATHNAME', 'sql_phone_calling_code' LANGUAGE C IMMUTABLE CALLED ON NULL INPUT PARALLEL SAFE COST 50;
COMMENT ON FUNCTION phone_calling_code(text, text) IS 'the calling code of the phone number that a text is';
CREATE FUNCTION phone_national_number(number text, region text DEFAULT NULL) RETURNS text
    AS 'MODULE_PATHNAME', 'sql_phone_national_number' LANGUAGE C IMMUTABLE CALLED ON NULL INPUT PARALLEL SAFE COST 50;
COMMENT ON FUNCTION phone_national_number(text, text) IS
    'the national digits of the phone number that a text is, with its leading zeros';
CREATE FUNCTION phone_possibility(number text, region text DEFAULT NULL) RETURNS text
    AS 'MODULE_PATHNAME', 'sql_phone_possibility' LANGUAGE C IMMUTABLE CALLED ON NULL INPUT PARALLEL SAFE COST 100;
COMMENT ON FUNCTION phone_possibility(text, text) IS
    'possible, possible-locally, too-short, too-long, wrong-length or unknown-code; NULL where a text is none of these';
CREATE FUNCTION phone_is_valid_for(number text, region text, id text) RETURNS boolean
    AS 'MODULE_PATHNAME', 'sql_phone_is_valid_for' LANGUAGE C IMMUTABLE CALLED ON NULL INPUT PARALLEL SAFE COST 100;
COMMENT ON FUNCTION phone_is_valid_for(text, text, text) IS
    'whether a text is a valid number of the region of this id, or with 001 of a code that serves none';
CREATE FUNCTION phone_area_length(number text, region text DEFAULT NULL) RETURNS integer
    AS 'MODULE_PATHNAME', 'sql_phone_area_length' LANGUAGE C IMMUTABLE CALLED ON NULL INPUT PARALLEL SAFE COST 100;
COMMENT ON FUNCTION phone_area_length(text, text) IS
    'how many digits of the national number that a text is are the code of its area; 0 where it has none';
CREATE FUNCTION phone_match(first text, second text) RETURNS text
    AS 'MODULE_PATHNAME', 'sql_phone_match' LANGUAGE C IMMUTABLE STRICT PARALLEL SAFE COST 100;
COMMENT ON FUNCTION phone_match(text, text) IS
    'how like two texts are: NotANumber, NoMatch, ShortNsnMatch, NsnMatch or ExactMatch';
CREATE FUNCTION phone_possibility(number phone) RETURNS text
    AS 'MODULE_PATHNAME', 'phone_row_possibility' LANGUAGE C IMMUTABLE STRICT PARALLEL SAFE COST 50;
COMMENT ON FUNCTION phone_possibility(phone) IS 'what the count of its digits says of a phone number';
CREATE FUNCTION phone_is_valid_for(number phone, id text) RETURNS boolean
    AS 'MODULE_PATHNAME', 'phone_row_is_valid_for' LANGUAGE C IMMUTABLE STRICT PARALLEL SAFE COST 50;
COMMENT ON FUNCTION phone_is_valid_for(phone, text) IS 'whether a phone number is a valid one of the region of this id';
CREATE FUNCTION phone_area_length(number phone) RETURNS integer
    AS 'MODULE_PATHNAME', 'phone_row_area_length' LANGUAGE C IMMUTABLE STRICT PARALLEL SAFE COST 50;
COMMENT ON FUNCTION phone_area_length(phone) IS 'how many of its national digits are the code of its area';

-- The numbers that stand in a text, by their places in characters.
CREATE FUNCTION phone_find(text text, region text DEFAULT NULL, OUT start integer, OUT length integer, OUT found text, OUT e164 text)
    RETURNS SETOF record
    AS 'MODULE_PATHNAME', 'sql_phone_find' LANGUAGE C IMMUTABLE CALLED ON NULL INPUT PARALLEL SAFE COST 1000 ROWS 2;
COMMENT ON FUNCTION phone_find(text, text) IS
    'the valid phone numbers in a text: where each begins, counted from 1, its length, its piece of the text, its E.164 text';

CREATE FUNCTION phone_table_version() RETURNS text
    AS 'MODULE_PATHNAME', 'sql_phone_table_version' LANGUAGE C STABLE PARALLEL SAFE;
COMMENT ON FUNCTION phone_table_version() IS 'the version of the table of phone numbers, or its file';
