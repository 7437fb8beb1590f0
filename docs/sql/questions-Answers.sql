-- eval SameStreet Orders, over the tables of Orders. Written by docs/sql.py.
create table "answers Pair" as
  select row_number() over (order by "o".id, "p".id) as id, "o".id as "the o", "p".id as "the p", "o"."number" as "left", "p"."number" as "right", "o by".id as "first c"
  from "Order" as "o", "Order" as "p", "Customer" as "o by", "Customer" as "p by"
  where "o by".id = "o"."by" and "p by".id = "p"."by" and "o by"."street" = "p by"."street";
create table "answers Buyer" as
  select row_number() over (order by "c".id) as id, "c".id as "the c", "c"."name" as "name"
  from "Customer" as "c";
-- Pair
select a.id, a."left", a."right", "first".id as "first"
  from "answers Pair" as a, "answers Buyer" as "first"
  where "first"."the c" = a."first c"
  order by a.id;
-- Buyer
select a.id, a."name"
  from "answers Buyer" as a
  order by a.id;
