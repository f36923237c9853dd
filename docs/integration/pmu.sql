-- The lines of `pdcgw bridge --format csv` in PostgreSQL: the table, and what was lost.
create table if not exists pmu_line (type text, time timestamptz, gateway text, stream int, idcode int, station text, stat text, good boolean,
    filled boolean, time_quality int, leap_second int, frequency double precision, rocof double precision, "from" timestamptz, "to" timestamptz,
    slots bigint, why text, detail jsonb);
create index if not exists pmu_line_time on pmu_line (stream, idcode, time) where type = 'data';
