-- eval InElmStreet Customers, over the tables of Customers. Written by docs/sql.py.
create table "answers Neighbour" as
  select row_number() over (order by "c".id) as id, "c".id as "the c", "c"."name" as "name"
  from "Customer" as "c"
  where "c"."street" = '1 Elm St';
-- Neighbour
select a.id, a."name"
  from "answers Neighbour" as a
  order by a.id;
