-- eval Find Given, over the tables of Given. Written by docs/sql.py.
create table "answers Customer" as
  select row_number() over (order by "c".id) as id, "c".id as "the c", "c"."name" as "name", "c"."mail" as "mail", "c"."street" as "street"
  from "Customer" as "c";
create table "answers Member" as
  select row_number() over (order by "m".id) as id, "m".id as "the m", "m"."nick" as "nick", "m"."address" as "address"
  from "Member" as "m";
create table "answers Match" as
  select row_number() over (order by "c".id, "m".id) as id, "c".id as "the c", "m".id as "the m", "c".id as "customer c", "m".id as "member m"
  from "Customer" as "c", "Member" as "m"
  where "c"."mail" = "m"."address";
-- Customer
select a.id, a."name", a."mail", a."street"
  from "answers Customer" as a
  order by a.id;
-- Member
select a.id, a."nick", a."address"
  from "answers Member" as a
  order by a.id;
-- Match
select a.id, "customer".id as "customer", "member".id as "member"
  from "answers Match" as a, "answers Customer" as "customer", "answers Member" as "member"
  where "customer"."the c" = a."customer c" and "member"."the m" = a."member m"
  order by a.id;
