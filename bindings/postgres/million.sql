-- A million customers in five forms of writing, timed: loaded, keyed by an update, indexed, joined.
create table million(id integer, phone text, country text, e164 text);
insert into million(id, phone, country)
    select i, case i % 5 when 0 then format('(650) %s-%s', 200 + high, low)
            when 1 then format('+64 3 %s %s', 300 + high, low)
            when 2 then format('020 %s %s', 7000 + high, low)
            when 3 then format('0176 %s %s ext. 12', 1000 + high, low)
            else format('06.%s.10.%s', 10 + high % 89, low) end,
        case i % 5 when 0 then 'US' when 1 then '' when 2 then 'GB' when 3 then 'DE' else 'FR' end
    from (select i, i / 10000 as high, lpad((i % 10000)::text, 4, '0') as low from generate_series(0, 999999) as i) as cut;
vacuum analyze million;
\timing on
\echo update
update million set e164 = phone_e164(phone, country);
\echo count
select count(*), count(e164), count(distinct e164) from million;
\echo index
create index million_e164 on million(phone_e164(phone, country));
\echo join by the index
create table calls as select id, e164 from million where id % 10 = 0;
analyze million, calls;
select count(*) from calls join million on phone_e164(million.phone, million.country) = calls.e164;
