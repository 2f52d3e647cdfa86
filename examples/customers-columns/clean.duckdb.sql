-- Cleans customers.csv in DuckDB: one record a customer, with what its number is, or why it is none.
load './phonenumber.duckdb_extension';
copy (
    select id, number.e164, number.type, number.region, number.is_valid, number.refusal
    from (
        select id::integer as id, phone(coalesce(phone, ''), coalesce(nullif(trim(country), ''), 'DE')) as number
        from read_csv('customers.csv', all_varchar = true)
    )
    order by id
) to 'duckdb.csv' (header, delimiter ',');
