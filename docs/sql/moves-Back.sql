-- delta Join People, over the tables of People. Written by docs/sql.py.
-- Customer
select "row".id, "row"."called" as "name", "row same".id as "has"
  from "Person" as "row", "Person" as "row same"
  where "row same".id = "row"."same"
  order by "row".id;
-- Account
select "row".id, "row"."reached" as "mail"
  from "Person" as "row"
  order by "row".id;
