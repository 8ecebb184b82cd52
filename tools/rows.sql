-- Tables and views for the rows of a report, for sqlite3 (3.32 or later):
--     sqlite3 case.db < tools/rows.sql
--     sqlite3 case.db ".import --csv report.csv rows"
-- Distances come out in metres, speeds in knots, courses in degrees. Steps and ticks stay as they are: step k begins at the window's
-- start and k ticks.
create table rows (kind text, f1 text, f2 text, f3 text, f4 text, f5 text, f6 text);

create view point as select cast(f1 as integer) as mmsi, cast(f2 as integer) as time, f3 / 10000.0 as east, f4 / 10000.0 as north,
  nullif(f5, '') / 10.0 as speed, nullif(f6, '') / 10.0 as course from rows where kind = 'point';

create view meeting as select cast(f1 as integer) as subject, cast(f2 as integer) as other, f3 as encounter, cast(f4 as integer) as first,
  cast(f5 as integer) as last, f6 / 10000.0 as least from rows where kind = 'meeting';

create view verdict as select cast(f1 as integer) as subject, cast(f2 as integer) as other, f3 as rule, f4 as value,
  cast(f5 as integer) as first, cast(f6 as integer) as last from rows where kind = 'verdict';

create view vessel as select cast(f1 as integer) as mmsi, f2 as name, cast(f3 as integer) as ship_type, cast(f4 as integer) as length,
  cast(f5 as integer) as reports, cast(f6 as integer) as legs from rows where kind = 'vessel';

create view total as select f1 as rule, cast(f2 as integer) as positions, cast(f3 as integer) as yes, cast(f4 as integer) as no,
  cast(f5 as integer) as open, cast(f6 as integer) as broken from rows where kind = 'total';

create view plan as select cast(f1 as integer) as number, cast(f2 as integer) as leg, f3 / 10.0 as course, f4 / 10.0 as speed,
  cast(f5 as integer) as first, cast(f6 as integer) as last from rows where kind = 'plan';

create view "none" as select cast(f1 as integer) as plans from rows where kind = 'none';

-- the instant is a part of the step, from 0 to 1
create view why as select f1 as choices, cast(f2 as integer) as target, f3 as reason, cast(f4 as integer) as step,
  cast(nullif(f5, '') as real) / cast(nullif(f6, '') as real) as instant from rows where kind = 'why';

create view lines as select f1 as outcome, cast(f2 as integer) as count from rows where kind = 'lines';
