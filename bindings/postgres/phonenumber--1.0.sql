\echo Use "CREATE EXTENSION phonenumber" to load this file. \quit

CREATE FUNCTION phone_e164(number text, region text) RETURNS text
    AS 'MODULE_PATHNAME', 'sql_phone_e164' LANGUAGE C IMMUTABLE STRICT PARALLEL SAFE COST 50;
COMMENT ON FUNCTION phone_e164(text, text) IS 'the E.164 text of a phone number; NULL where it is none';

CREATE FUNCTION phone_format(number text, region text, mode text) RETURNS text
    AS 'MODULE_PATHNAME', 'sql_phone_format' LANGUAGE C IMMUTABLE STRICT PARALLEL SAFE COST 100;
COMMENT ON FUNCTION phone_format(text, text, text) IS
    'a phone number in the mode e164, international, national or rfc3966; NULL where it is none';

CREATE FUNCTION phone_type(number text, region text) RETURNS text
    AS 'MODULE_PATHNAME', 'sql_phone_type' LANGUAGE C IMMUTABLE STRICT PARALLEL SAFE COST 100;
COMMENT ON FUNCTION phone_type(text, text) IS 'the kind of a phone number; NULL where it is none';

CREATE FUNCTION phone_region(number text, region text) RETURNS text
    AS 'MODULE_PATHNAME', 'sql_phone_region' LANGUAGE C IMMUTABLE STRICT PARALLEL SAFE COST 100;
COMMENT ON FUNCTION phone_region(text, text) IS 'the region of a phone number; NULL where it is none or has none';

CREATE FUNCTION phone_is_valid(number text, region text) RETURNS boolean
    AS 'MODULE_PATHNAME', 'sql_phone_is_valid' LANGUAGE C IMMUTABLE STRICT PARALLEL SAFE COST 100;
COMMENT ON FUNCTION phone_is_valid(text, text) IS 'whether a phone number is valid; NULL where it is none';

CREATE FUNCTION phone_refusal(number text, region text) RETURNS text
    AS 'MODULE_PATHNAME', 'sql_phone_refusal' LANGUAGE C IMMUTABLE STRICT PARALLEL SAFE COST 50;
COMMENT ON FUNCTION phone_refusal(text, text) IS 'why a text is no phone number; NULL where it is one';

CREATE FUNCTION phone_refusal(number text, region text, mode text) RETURNS text
    AS 'MODULE_PATHNAME', 'sql_phone_refusal' LANGUAGE C IMMUTABLE STRICT PARALLEL SAFE COST 100;
COMMENT ON FUNCTION phone_refusal(text, text, text) IS 'why phone_format has no answer; NULL where it has one';
