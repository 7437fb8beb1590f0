-- delta FromNewsletter Both, over the tables of Both. Written by docs/sql.py.
-- Subscriber
select "row".id, "row"."Newsletter_nick" as "nick", "row"."Newsletter_address" as "address"
  from "Shop_Customer" as "row"
  order by "row".id;
