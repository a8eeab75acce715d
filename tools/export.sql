-- Exports the database that psql is connected to, as tools/export_folder calls it, into psql's working folder:
-- the export folder as export/, and beside it what is told of it. All is read in one transaction.
--
-- Variables: skip, passwords, own_roles (true or false), name (another name for the database, or nothing)

BEGIN ISOLATION LEVEL REPEATABLE READ, READ ONLY;

-- The sequence in which a table's rows lie and the spelling of each value, whatever the session's own settings are.
SET search_path = '';
SET client_encoding = 'UTF8';
SET standard_conforming_strings = on;
SET quote_all_identifiers = off;
SET synchronize_seqscans = off;
SET datestyle = 'ISO';
SET intervalstyle = 'postgres';
SET timezone = 'UTC';
SET extra_float_digits = 3;
SET bytea_output = 'hex';
SET row_security = off;
SET statement_timeout = 0;
SET lock_timeout = 0;
SET idle_in_transaction_session_timeout = 0;
SET client_min_messages = warning;
SET jit = off;

SELECT :SERVER_VERSION_NUM / 10000 NOT BETWEEN 12 AND 17 AS untried
\gset
\if :untried
    \echo version
    \q
\endif

\ir export_choice.sql

\if :incomplete
    \if :skip
    \else
        \echo refused
        \q
    \endif
\endif

-- No one changes or drops a table while it is read.
SELECT format('LOCK TABLE %s IN ACCESS SHARE MODE', string_agg(oid::regclass::text, ', '))
FROM (SELECT oid, row_number() OVER (ORDER BY oid) AS number
      FROM pg_class WHERE oid = ANY (:'relations'::oid[]) AND relkind = 'r') numbered
GROUP BY number / 100
\gexec

\ir export_tables.sql

COMMIT;
\echo done
