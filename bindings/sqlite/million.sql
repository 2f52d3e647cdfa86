-- A million customers in five forms of writing, timed: loaded, keyed by an update, indexed, joined.
.timer on
create table customers(id integer primary key, phone text, country text, e164 text);
insert into customers(phone, country)
    with recursive n(i) as (select 0 union all select i + 1 from n where i < 999999),
        cut(form, high, low) as (select i % 5, i / 10000, i % 10000 from n)
    select case form when 0 then printf('(650) %03d-%04d', 200 + high, low)
            when 1 then printf('+64 3 %03d %04d', 300 + high, low)
            when 2 then printf('020 %04d %04d', 7000 + high, low)
            when 3 then printf('0176 %04d %04d ext. 12', 1000 + high, low)
            else printf('06.%02d.10.%04d', 10 + high % 89, low) end,
        case form when 0 then 'US' when 1 then '' when 2 then 'GB' when 3 then 'DE' else 'FR' end from cut;
.print update
update customers set e164 = phone_e164(phone, country);
select count(*), count(e164), count(distinct e164) from customers;
.print index
create index customers_e164 on customers(phone_e164(phone, country));
.print join by the index
create table calls as select id, e164 from customers where id % 10 = 0;
select count(*) from calls join customers on phone_e164(customers.phone, customers.country) = calls.e164;
