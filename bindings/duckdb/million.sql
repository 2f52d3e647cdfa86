-- A million customers in five forms of writing, timed: keyed, counted, and told of whole, by one thread and by all.
create table customers as
    select i as id, case i % 5 when 0 then format('(650) {}-{:04d}', 200 + i // 10000, i % 10000)
            when 1 then format('+64 3 {} {:04d}', 300 + i // 10000, i % 10000)
            when 2 then format('020 {} {:04d}', 7000 + i // 10000, i % 10000)
            when 3 then format('0176 {} {:04d} ext. 12', 1000 + i // 10000, i % 10000)
            else format('06.{}.10.{:04d}', 10 + i // 10000 % 89, i % 10000) end as phone,
        ['US', '', 'GB', 'DE', 'FR'][1 + i % 5] as country from range(1000000) as n(i);
.timer on
set threads = 1;
select count(phone_e164(phone, country)) as one_thread from customers;
reset threads;
select count(phone_e164(phone, country)) as all_threads from customers;
create table told as select id, phone(phone, country) as it from customers;
select count(*), count(it.e164), count(distinct it.e164), count(*) filter (it.is_valid) from told;
