-- eval Stay Beside, over the tables of Beside. Written by docs/sql.py.
create table "answers Stayed" as
  select row_number() over (order by "b".id, "n".id) as id, "b".id as "the b", "n".id as "the n", "n"."mail_now" as "mail", "b"."street_before" as "old_street", "n"."street_now" as "new_street"
  from "Before" as "b", "Now" as "n"
  where "b"."mail_before" = "n"."mail_now";
-- Stayed
select a.id, a."mail", a."old_street", a."new_street"
  from "answers Stayed" as a
  order by a.id;
