-- eval Find Given, over the tables of Given. Written by docs/sql.py.
create table "answers Entry" as
  select row_number() over (order by "e".id) as id, "e".id as "the e", "e"."name" as "name", "e"."mail" as "mail", "e"."phone" as "phone"
  from "Entry" as "e";
create table "answers Match" as
  select row_number() over (order by "a".id, "b".id) as id, "a".id as "the a", "b".id as "the b", "a".id as "one e", "b".id as "other e"
  from "Entry" as "a", "Entry" as "b"
  where "a"."mail" = "b"."mail";
-- Entry
select a.id, a."name", a."mail", a."phone"
  from "answers Entry" as a
  order by a.id;
-- Match
select a.id, "one".id as "one", "other".id as "other"
  from "answers Match" as a, "answers Entry" as "one", "answers Entry" as "other"
  where "one"."the e" = a."one e" and "other"."the e" = a."other e"
  order by a.id;
