-- eval Ask Merged, over the tables of Merged. Written by docs/sql.py.
create table "answers Doubt" as
  select row_number() over (order by "p".id) as id, "p".id as "the p", "p"."mail" as "who", "p"."shop_street" as "shop", "p"."club_street" as "club"
  from "Person" as "p";
-- Doubt
select a.id, a."who", a."shop", a."club"
  from "answers Doubt" as a
  order by a.id;
