#!/bin/sh
# Copies a file of lines of `pdcgw bridge --format csv` to the table of pmu.sql, all or none of them: to-postgresql.sh FILE. PGHOST, PGDATABASE and
# others of psql say where.
exec psql -q -v ON_ERROR_STOP=1 -c '\copy pmu_line from stdin with (format csv)' < "$1"
