-- The export folder's files, one query a file, in the order of the tables; behind them the rows of users' tables.
--
-- export.sql reads this file behind export_choice.sql, whose variables say what is exported. All is written below
-- export/ of psql's working folder. Texts are PostgreSQL's own spellings, under an empty search path.

COPY (
    SELECT oid, rolname, rolsuper, rolinherit, rolcreaterole, rolcreatedb, rolcanlogin, rolreplication, rolbypassrls,
           rolconnlimit, :password, rolvaliduntil
    FROM :authid
    WHERE oid = ANY (:'roles'::oid[])
    ORDER BY oid
) TO STDOUT \g export/pg_authid.copy

-- Before version 16 a membership has no oid, its member inherits by an attribute of its own and may always set the role,
-- and the role that granted it may be gone.
COPY (
    SELECT coalesce((to_jsonb(m) ->> 'oid')::oid, (row_number() OVER (ORDER BY roleid, member))::oid) AS oid,
           roleid, member, CASE WHEN grantor = ANY (:'roles'::oid[]) THEN grantor ELSE 10 END, admin_option,
           coalesce((to_jsonb(m) ->> 'inherit_option')::boolean, rolinherit),
           coalesce((to_jsonb(m) ->> 'set_option')::boolean, true)
    FROM pg_auth_members m JOIN pg_roles ON pg_roles.oid = member
    WHERE roleid = ANY (:'roles'::oid[]) AND member = ANY (:'roles'::oid[])
    ORDER BY 1
) TO STDOUT \g export/pg_auth_members.copy

COPY (
    SELECT oid, coalesce(nullif(:'name', ''), datname), datdba, 'UTF8', true
    FROM pg_database
    WHERE datname = current_database()
) TO STDOUT \g export/pg_database.copy

COPY (
    SELECT n.oid, nspname, nspowner, acl
    FROM pg_namespace n LEFT JOIN json_to_recordset(:'acls') AS a(class oid, oid oid, acl text)
         ON a.class = 'pg_namespace'::regclass AND a.oid = n.oid
    WHERE n.oid = ANY (:'schemas'::oid[])
    ORDER BY n.oid
) TO STDOUT \g export/pg_namespace.copy

-- Here and in pg_attribute a type of the server whose text stands in quotes ("char"), or is that of an array behind a
-- schema, stands by its name: pg_catalog."char", information_schema._sql_identifier.
COPY (
    SELECT t.oid, t.typname, t.typnamespace, t.typowner, t.typtype, t.typnotnull,
           CASE WHEN b.oid = ANY (:'types'::oid[]) THEN b.oid ELSE 0 END,
           CASE WHEN b.oid IS NULL THEN ''
                WHEN b.oid < 16384 AND format_type(b.oid, t.typtypmod) ~ '^"|\..*\[]'
                THEN b.typnamespace::regnamespace || '.' || quote_ident(b.typname)
                ELSE format_type(b.oid, t.typtypmod) END,
           pg_get_expr(t.typdefaultbin, 0), acl
    FROM pg_type t LEFT JOIN pg_type b ON b.oid = t.typbasetype
                   LEFT JOIN json_to_recordset(:'acls') AS a(class oid, oid oid, acl text)
                   ON a.class = 'pg_type'::regclass AND a.oid = t.oid
    WHERE t.oid = ANY (:'types'::oid[])
    ORDER BY t.oid
) TO STDOUT \g export/pg_type.copy

COPY (
    SELECT oid, enumtypid, row_number() OVER (PARTITION BY enumtypid ORDER BY enumsortorder), enumlabel
    FROM pg_enum
    WHERE enumtypid = ANY (:'types'::oid[])
    ORDER BY 2, 3
) TO STDOUT \g export/pg_enum.copy

COPY (
    SELECT c.oid, relname, relnamespace, relkind, relowner, 'p', acl
    FROM pg_class c LEFT JOIN json_to_recordset(:'acls') AS a(class oid, oid oid, acl text)
         ON a.class = 'pg_class'::regclass AND a.oid = c.oid
    WHERE c.oid = ANY (:'relations'::oid[])
    ORDER BY c.oid
) TO STDOUT \g export/pg_class.copy

-- A view's column of a type that the folder can't hold has no row: only views that need each other are made by columns.
COPY (
    SELECT attrelid, attnum, attname, CASE WHEN atttypid = ANY (:'types'::oid[]) THEN atttypid ELSE 0 END,
           CASE WHEN atttypid < 16384 AND format_type(atttypid, atttypmod) ~ '^"|\..*\[]'
                THEN typnamespace::regnamespace || '.' || quote_ident(typname)
                ELSE format_type(atttypid, atttypmod) END,
           attnotnull
    FROM pg_attribute JOIN pg_class c ON c.oid = attrelid JOIN pg_type t ON t.oid = atttypid
    WHERE attrelid = ANY (:'relations'::oid[]) AND relkind IN ('r', 'v') AND attnum > 0 AND NOT attisdropped
      AND attrelid || '.' || attnum <> ALL (:'gone_columns'::text[])
      AND (atttypid < 16384 OR atttypid = ANY (:'types'::oid[])) AND format_type(atttypid, atttypmod) NOT LIKE 'numeric(%,-%'
    ORDER BY attrelid, attnum
) TO STDOUT \g export/pg_attribute.copy

COPY (
    SELECT oid, adrelid, adnum, pg_get_expr(adbin, adrelid)
    FROM pg_attrdef
    WHERE oid = ANY (:'defaults'::oid[])
    ORDER BY oid
) TO STDOUT \g export/pg_attrdef.copy

COPY (
    SELECT oid, conname, contype, conrelid, contypid, conindid, confrelid, pg_get_constraintdef(oid)
    FROM pg_constraint
    WHERE oid = ANY (:'constraints'::oid[])
    ORDER BY oid
) TO STDOUT \g export/pg_constraint.copy

COPY (
    SELECT indexrelid, indrelid, indisunique, pg_get_indexdef(indexrelid)
    FROM pg_index
    WHERE indexrelid = ANY (:'relations'::oid[])
      AND NOT EXISTS (SELECT FROM pg_constraint WHERE conindid = indexrelid AND contype IN ('p', 'u'))
    ORDER BY indexrelid
) TO STDOUT \g export/pg_index.copy

-- The value of a sequence stands in the sequence itself, so each one is asked, and all answers go to one file.
\o export/pg_sequence.copy
SELECT format('COPY (SELECT %s, %L, %s, %s, %s, %s, %s, %L::boolean, last_value, is_called, %s, %s FROM %s) TO STDOUT',
              seqrelid, format_type(seqtypid, NULL), seqstart, seqincrement, seqmax, seqmin, seqcache, seqcycle,
              coalesce(refobjid, 0), coalesce(refobjsubid, 0), seqrelid::regclass)
FROM pg_sequence LEFT JOIN pg_depend ON classid = 'pg_class'::regclass AND objid = seqrelid AND deptype = 'a'
                                    AND refclassid = 'pg_class'::regclass AND refobjsubid > 0
WHERE seqrelid = ANY (:'relations'::oid[])
ORDER BY seqrelid
\gexec
\o

COPY (
    SELECT oid, ev_class, pg_get_viewdef(ev_class)
    FROM pg_rewrite
    WHERE ev_class = ANY (:'relations'::oid[]) AND ev_type = '1'
    ORDER BY oid
) TO STDOUT \g export/pg_rewrite.copy

-- The comment that initdb writes on the schema public is no one's.
COPY (
    SELECT objoid, classoid, objsubid, description
    FROM pg_description LEFT JOIN pg_class c ON classoid = 'pg_class'::regclass AND c.oid = objoid
                        LEFT JOIN pg_constraint k ON classoid = 'pg_constraint'::regclass AND k.oid = objoid
    WHERE (classoid = 'pg_namespace'::regclass AND objoid = ANY (:'schemas'::oid[])
               AND (objoid, description) <> ('public'::regnamespace, 'standard public schema')
           OR classoid = 'pg_type'::regclass AND objoid = ANY (:'types'::oid[])
           OR c.oid = ANY (:'relations'::oid[]) AND (objsubid = 0 OR relkind = 'r')
               AND objoid || '.' || objsubid <> ALL (:'gone_columns'::text[])
           OR k.oid = ANY (:'constraints'::oid[]) AND contypid = 0)
    ORDER BY classoid, objoid, objsubid
) TO STDOUT \g export/pg_description.copy

COPY (
    WITH object(class, oid) AS (
                  SELECT 'pg_namespace'::regclass, unnest(:'schemas'::oid[])
        UNION ALL SELECT 'pg_type', unnest(:'types'::oid[])
        UNION ALL SELECT 'pg_class', unnest(:'relations'::oid[])
        UNION ALL SELECT 'pg_constraint', unnest(:'constraints'::oid[])
        UNION ALL SELECT 'pg_attrdef', unnest(:'defaults'::oid[])
        UNION ALL SELECT 'pg_rewrite', oid FROM pg_rewrite WHERE ev_class = ANY (:'relations'::oid[]) AND ev_type = '1'
    )
    SELECT classid, objid, objsubid, refclassid, refobjid, refobjsubid, deptype
    FROM pg_depend
    WHERE (classid, objid) IN (TABLE object) AND (refclassid, refobjid) IN (TABLE object)
    ORDER BY classid, objid, objsubid, refclassid, refobjid, refobjsubid, deptype
) TO STDOUT \g export/pg_depend.copy


-- The rows, a file a table. The commands that write them are made first, in the order of the list of tables that the
-- shell reads beside the counts. A generated column is in no COPY of a table, so such a table is copied by a query;
-- a table without columns has no rows here.

COPY (
    SELECT oid, oid::regclass::text AS path FROM pg_class WHERE oid = ANY (:'relations'::oid[]) AND relkind = 'r' ORDER BY oid
) TO STDOUT \g tables

SELECT format(CASE WHEN columns IS NULL THEN 'COPY (SELECT WHERE false)'
                   WHEN generated THEN 'COPY (SELECT %2$s FROM ONLY %1$s)' ELSE 'COPY %1$s (%2$s)' END
              || E' TO STDOUT \\g export/data/%3$s.copy\n\\echo :ROW_COUNT', oid::regclass, columns, oid)
FROM pg_class, LATERAL (
    SELECT string_agg(quote_ident(attname), ', ' ORDER BY attnum), bool_or(attgenerated <> '')
    FROM pg_attribute
    WHERE attrelid = oid AND attnum > 0 AND NOT attisdropped
      AND attrelid || '.' || attnum <> ALL (:'gone_columns'::text[])) AS list(columns, generated)
WHERE oid = ANY (:'relations'::oid[]) AND relkind = 'r'
ORDER BY oid
\g rows.sql

\i rows.sql
