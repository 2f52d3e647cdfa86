\set VERBOSITY terse
\pset null NULL
CREATE EXTENSION phonenumber VERSION '1.0';
SELECT phone_e164('03-331 6005', NULL) AS strict;
ALTER EXTENSION phonenumber UPDATE;
SELECT extversion FROM pg_extension WHERE extname = 'phonenumber';
SELECT phone_table_version() LIKE 'libphonenumber %' AS version;

-- A NULL region, or none, means none; a NULL text is NULL.
SELECT phone_e164('+64 3 331 6005', NULL), phone_e164('+64 3 331 6005'), phone_e164(NULL), phone_e164('03-331 6005'),
    phone_refusal('03-331 6005'), phone_refusal(NULL, 'NZ');

-- The text of a value, from E.164 or RFC 3966 text alone.
SELECT '+6433316005'::phone, 'tel:+64-3-331-6005;ext=12'::phone, '+39(06)698.1'::phone, '+390'::phone, '+3900'::phone;
SELECT '+7;ext=1'::phone;
SELECT '+12345678901234567'::phone, '+99912345678901234567'::phone;
SELECT '+999123456789012345678'::phone;
SELECT '03-331 6005'::phone;
SELECT '+64 3 331 6005'::phone;
SELECT '+0123'::phone;
SELECT ''::phone;
SELECT '+'::phone;
SELECT '+64'::phone;
SELECT '+643;phone-context=x'::phone;
SELECT '+643;ext='::phone;
SELECT '+643;ext=1234567890123456789012345'::phone;
SELECT '+6433316005'::text::phone::text, CAST('+6433316005;EXT=1-2' AS phone)::varchar, pg_column_size('+6433316005'::phone);

-- Texts as people write them.
SELECT phone('03-331 6005', 'NZ'), phone('03-331 6005 ext. 12', 'NZ'), phone('06 698', 'IT'), phone('call me', 'NZ'),
    phone(NULL, 'NZ'), phone('+64 3 331 6005'::text);
SELECT p, phone_e164(p), phone_format(p, 'international'), phone_format(p, 'RFC3966'), phone_format(p, 'local') AS none,
    phone_type(p), phone_region(p), phone_is_valid(p), phone_calling_code(p), phone_national_number(p), phone_extension(p)
    FROM (VALUES (phone('03-331 6005 ext. 12', 'NZ')), (phone('06 698 1', 'IT')), (NULL::phone)) AS those(p);
SELECT * FROM phone_parts('03-331 6005', 'NZ');
SELECT * FROM phone_parts('call me', 'NZ');
SELECT (phone_parts(NULL, 'NZ')).*;
SELECT * FROM phone_find('Añ: 03-331 6005, +64 9 887 6986.', 'NZ');
SELECT t, f.e164 FROM (VALUES ('+64 3 331 6005 today'), ('none'), (NULL)) AS those(t) LEFT JOIN phone_find(t) AS f ON true;
SELECT count(*) FROM phone_find('03-331 6005', 'xx');

-- Order, and what stands on it.
CREATE TEMP TABLE held(id serial, p phone);
INSERT INTO held(p) SELECT t::phone FROM unnest(ARRAY['+6433316005', '+6433316005;ext=2', '+643331600', '+390612', '+39612',
    '+16502530000', '+6433316005;ext=12', '+6433316005']) AS t;
SELECT p FROM held ORDER BY p, id;
SELECT min(id), count(*) FROM held GROUP BY p HAVING count(*) > 1;
SELECT count(*) FROM held a JOIN held b USING (p);
SELECT bool_and((a.p < b.p) = (b.p > a.p) AND (a.p <= b.p) <> (a.p > b.p) AND (a.p = b.p) <> (a.p <> b.p)
    AND (a.p < b.p OR a.p = b.p OR b.p < a.p)) FROM held a, held b;
SELECT count(DISTINCT hashtextextended(p::text, 0)) = count(DISTINCT phone_hash_extended(p, 7)),
    bool_and(phone_hash(p) = phone_hash(p::text::phone)) FROM held;
CREATE INDEX ON held(p);
SET enable_seqscan = off; SET enable_bitmapscan = off; SET enable_sort = off;
EXPLAIN (COSTS OFF) SELECT p FROM held WHERE p = '+6433316005';
EXPLAIN (COSTS OFF) SELECT p FROM held ORDER BY p;
SET enable_hashjoin = off; SET enable_nestloop = off;
EXPLAIN (COSTS OFF) SELECT 1 FROM held a JOIN held b USING (p);
RESET enable_hashjoin; SET enable_mergejoin = off; RESET enable_seqscan; SET enable_indexscan = off; SET enable_indexonlyscan = off;
EXPLAIN (COSTS OFF) SELECT 1 FROM held a JOIN held b USING (p);
