-- Cleans customers.csv in PostgreSQL, as clean.duckdb.sql does in DuckDB. psql reads and writes the files.
create extension if not exists phonenumber;
create temporary table customers (id integer, name text, phone text, country text);
\copy customers from 'customers.csv' with (format csv, header)
create temporary table cleaned as
    select id, phone_e164(phone, country) as e164, phone_type(phone, country) as type, phone_region(phone, country) as region,
        case phone_is_valid(phone, country) when true then 'true' when false then 'false' end as is_valid,
        phone_refusal(phone, country) as refusal
    from (
        select id, coalesce(phone, '') as phone, coalesce(nullif(trim(country), ''), 'DE') as country from customers
    ) as customers;
\copy (select * from cleaned order by id) to 'postgres.csv' with (format csv, header)
