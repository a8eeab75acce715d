-- What of a database the export folder holds, and what it can't.
--
-- export.sql reads this file first. It leaves psql variables:
--   refused, reduced   lists (JSON) of what the folder can't hold: objects, and what is taken off others
--   gone               a list (JSON) of the objects that go: the refused ones, and what needs them
--   schemas, types, relations, constraints, defaults, roles
--                      the oids of what is exported, each as an array
--   gone_columns       the columns of exported tables that aren't, each as OID.NUMBER
--   acls               a list (JSON) of the rights on what is exported, where they aren't the default
--   incomplete         whether anything is refused
-- and files: refused, gone, notes. An object is told by its system table (class), its oid and, of a column, its number
-- (sub); else sub is 0.


-- 1. Objects that have no place in the folder. Oids from 16384 up are those of users' objects. What belongs to an
-- extension, or to a range type, isn't listed by itself; plpgsql is in every database.

WITH object(kind, class, oid) AS (
              SELECT 'extensions', 'pg_extension'::regclass, oid FROM pg_extension WHERE extname <> 'plpgsql'
    UNION ALL SELECT 'functions and procedures', 'pg_proc', oid FROM pg_proc WHERE pronamespace <> pg_my_temp_schema()
    UNION ALL SELECT 'triggers', 'pg_trigger', oid FROM pg_trigger WHERE NOT tgisinternal
    UNION ALL SELECT 'event triggers', 'pg_event_trigger', oid FROM pg_event_trigger
    UNION ALL SELECT 'rules', 'pg_rewrite', oid FROM pg_rewrite WHERE ev_type <> '1'
    UNION ALL SELECT 'policies', 'pg_policy', oid FROM pg_policy
    UNION ALL SELECT 'casts', 'pg_cast', oid FROM pg_cast
    UNION ALL SELECT 'operators', 'pg_operator', oid FROM pg_operator
    UNION ALL SELECT 'operator classes', 'pg_opclass', oid FROM pg_opclass
    UNION ALL SELECT 'operator families', 'pg_opfamily', oid FROM pg_opfamily
    UNION ALL SELECT 'access methods', 'pg_am', oid FROM pg_am
    UNION ALL SELECT 'languages', 'pg_language', oid FROM pg_language
    UNION ALL SELECT 'transforms', 'pg_transform', oid FROM pg_transform
    UNION ALL SELECT 'collations', 'pg_collation', oid FROM pg_collation WHERE collnamespace <> 'pg_catalog'::regnamespace
    UNION ALL SELECT 'conversions', 'pg_conversion', oid FROM pg_conversion
    UNION ALL SELECT 'text search configurations', 'pg_ts_config', oid FROM pg_ts_config
    UNION ALL SELECT 'text search dictionaries', 'pg_ts_dict', oid FROM pg_ts_dict
    UNION ALL SELECT 'text search parsers', 'pg_ts_parser', oid FROM pg_ts_parser
    UNION ALL SELECT 'text search templates', 'pg_ts_template', oid FROM pg_ts_template
    UNION ALL SELECT 'foreign-data wrappers', 'pg_foreign_data_wrapper', oid FROM pg_foreign_data_wrapper
    UNION ALL SELECT 'foreign servers', 'pg_foreign_server', oid FROM pg_foreign_server
    UNION ALL SELECT 'publications', 'pg_publication', oid FROM pg_publication
    UNION ALL SELECT 'statistics objects', 'pg_statistic_ext', oid FROM pg_statistic_ext
    UNION ALL SELECT 'default privileges', 'pg_default_acl', oid FROM pg_default_acl

    UNION ALL
    SELECT CASE relkind WHEN 'p' THEN 'partitioned tables' WHEN 'm' THEN 'materialized views'
                        WHEN 'f' THEN 'foreign tables' ELSE 'tables that inherit' END, 'pg_class', oid
    FROM pg_class c
    WHERE relpersistence <> 't' AND NOT relispartition
      AND (relkind IN ('p', 'm', 'f') OR relkind = 'r' AND EXISTS (SELECT FROM pg_inherits WHERE inhrelid = c.oid))
    UNION ALL
    SELECT 'indexes that are not valid', 'pg_class', indexrelid FROM pg_index WHERE NOT indisvalid

    -- Arrays are types of the kind b too, but have no array type of their own.
    UNION ALL
    SELECT CASE typtype WHEN 'c' THEN 'composite types' WHEN 'r' THEN 'range types' ELSE 'base types' END, 'pg_type', t.oid
    FROM pg_type t LEFT JOIN pg_class c ON c.oid = typrelid
    WHERE typtype IN ('p', 'r') OR typtype = 'b' AND typarray <> 0 OR typtype = 'c' AND c.relkind = 'c'
    UNION ALL
    SELECT 'domains over an array of a type of the database, or over numeric with a scale below 0', 'pg_type', d.oid
    FROM pg_type d JOIN pg_type b ON b.oid = d.typbasetype
    WHERE b.oid >= 16384 AND b.typtype = 'b' AND b.typarray = 0
       OR format_type(d.typbasetype, d.typtypmod) LIKE 'numeric(%,-%'

    UNION ALL
    SELECT CASE WHEN contype = 'x' THEN 'exclusion constraints'
                WHEN NOT convalidated THEN 'constraints that are NOT VALID'
                WHEN connoinherit AND contype = 'c' THEN 'checks with NO INHERIT'
                ELSE 'foreign keys with MATCH FULL' END, 'pg_constraint', oid
    FROM pg_constraint
    WHERE contype = 'x' OR NOT convalidated OR contype = 'c' AND connoinherit OR contype = 'f' AND confmatchtype = 'f'
    UNION ALL
    SELECT 'keys with INCLUDE or NULLS NOT DISTINCT', 'pg_constraint', c.oid
    FROM pg_constraint c JOIN pg_index i ON i.indexrelid = c.conindid
    WHERE contype IN ('p', 'u')
      AND (indnatts > indnkeyatts OR coalesce((to_jsonb(i) ->> 'indnullsnotdistinct')::boolean, false))
    UNION ALL
    SELECT 'foreign keys on a unique index that is more than a list of columns', 'pg_constraint', f.oid
    FROM pg_constraint f JOIN pg_index i ON i.indexrelid = f.conindid,
         LATERAL (SELECT ' USING btree (' || string_agg(quote_ident(attname), ', ' ORDER BY place) || ')'
                  FROM unnest(indkey) WITH ORDINALITY AS key(number, place)
                       JOIN pg_attribute ON attrelid = indrelid AND attnum = number) AS list(text)
    WHERE contype = 'f' AND right(pg_get_indexdef(conindid), length(list.text)) <> list.text

    UNION ALL
    SELECT 'defaults of columns of views', 'pg_attrdef', d.oid
    FROM pg_attrdef d JOIN pg_class v ON v.oid = adrelid WHERE v.relkind = 'v'
    UNION ALL
    SELECT 'views whose text names the row type of a table', 'pg_class', ev_class
    FROM pg_rewrite r JOIN pg_depend d ON d.classid = 'pg_rewrite'::regclass AND d.objid = r.oid
                      JOIN pg_type t ON d.refclassid = 'pg_type'::regclass AND t.oid = d.refobjid
    WHERE r.oid >= 16384 AND t.typtype = 'c'
      AND position('::' || format_type(t.oid, NULL) IN pg_get_viewdef(ev_class)) > 0
),
-- Types are enums and domains of the database, or the server's own.
untyped(kind, class, oid, sub) AS (
    SELECT CASE WHEN e.typtype IN ('e', 'd') THEN 'columns of an array of a type of the database'
                WHEN e.typtype = 'c' THEN 'columns of the row type of a table, or of an array of it'
                ELSE 'columns of numeric with a scale below 0' END, 'pg_class'::regclass, attrelid, attnum::integer
    FROM pg_attribute a JOIN pg_class c ON c.oid = attrelid JOIN pg_type t ON t.oid = atttypid
                        JOIN pg_type e ON e.oid = CASE WHEN t.typarray = 0 AND t.typelem <> 0 THEN t.typelem ELSE t.oid END
                        LEFT JOIN pg_class r ON r.oid = e.typrelid
    WHERE c.relkind = 'r' AND c.oid >= 16384 AND c.relpersistence <> 't' AND attnum > 0 AND NOT attisdropped
      AND (e.oid >= 16384 AND (e.typtype IN ('e', 'd') AND e.oid <> t.oid OR e.typtype = 'c' AND r.relkind <> 'c')
           OR format_type(atttypid, atttypmod) LIKE 'numeric(%,-%')
),
listed AS (
    SELECT kind, class::oid, oid, 0 AS sub FROM object WHERE oid >= 16384
    UNION SELECT kind, class::oid, oid, sub FROM untyped
)
SELECT coalesce(json_agg(listed), '[]') AS refused FROM listed
WHERE NOT EXISTS (SELECT FROM pg_depend
                  WHERE classid = class AND objid = oid
                    AND (deptype = 'e' OR deptype = 'i' AND refclassid = 'pg_type'::regclass))
\gset


-- 2. What goes with them: whatever needs them. A view goes where its rule does. A column or a domain stays without a
-- collation that goes.

WITH RECURSIVE lost(class, oid, sub) AS (
    SELECT * FROM json_to_recordset(:'refused') AS r(class oid, oid oid, sub integer)
    UNION
    SELECT needs.* FROM lost, LATERAL (
        SELECT classid, objid, objsubid FROM pg_depend
        WHERE refclassid = lost.class AND refobjid = lost.oid AND lost.sub IN (0, refobjsubid)
          AND NOT (lost.class = 'pg_collation'::regclass AND (objsubid > 0 OR classid = 'pg_type'::regclass))
        UNION ALL
        SELECT refclassid, refobjid, 0 FROM pg_depend
        WHERE lost.class = 'pg_rewrite'::regclass AND classid = lost.class AND objid = lost.oid AND deptype = 'i'
    ) needs
)
SELECT coalesce(json_agg(lost), '[]') AS gone FROM lost
WHERE class IN ('pg_namespace'::regclass, 'pg_type'::regclass, 'pg_class'::regclass, 'pg_constraint'::regclass,
                'pg_attrdef'::regclass)
\gset


-- 3. What is exported. The sequences of identity columns are left out with the identity, below.

WITH lost AS (SELECT * FROM json_to_recordset(:'gone') AS g(class oid, oid oid, sub integer)),
schema AS (
    SELECT oid FROM pg_namespace
    WHERE nspname !~ '^pg_' AND nspname <> 'information_schema'
      AND oid NOT IN (SELECT oid FROM lost WHERE class = 'pg_namespace'::regclass)
),
type AS (
    SELECT oid FROM pg_type
    WHERE typtype IN ('e', 'd') AND typnamespace IN (TABLE schema)
      AND oid NOT IN (SELECT oid FROM lost WHERE class = 'pg_type'::regclass)
),
relation AS (
    SELECT oid FROM pg_class c
    WHERE relkind IN ('r', 'v', 'S', 'i') AND relnamespace IN (TABLE schema)
      AND oid NOT IN (SELECT oid FROM lost WHERE class = 'pg_class'::regclass AND sub = 0)
      AND NOT (relkind = 'S' AND EXISTS (SELECT FROM pg_depend
                   WHERE classid = 'pg_class'::regclass AND objid = c.oid AND deptype = 'i'))
)
SELECT array(TABLE schema) AS schemas,
       array(TABLE type) AS types,
       array(TABLE relation) AS relations,
       array(SELECT oid FROM pg_constraint
             WHERE contype IN ('p', 'u', 'f', 'c') AND (conrelid IN (TABLE relation) OR contypid IN (TABLE type))
               AND oid NOT IN (SELECT oid FROM lost WHERE class = 'pg_constraint'::regclass)) AS constraints,
       array(SELECT d.oid FROM pg_attrdef d JOIN pg_attribute ON attrelid = adrelid AND attnum = adnum
             WHERE adrelid IN (TABLE relation) AND attgenerated = ''
               AND d.oid NOT IN (SELECT oid FROM lost WHERE class = 'pg_attrdef'::regclass)) AS defaults,
       array(SELECT oid || '.' || sub FROM lost WHERE class = 'pg_class'::regclass AND sub > 0) AS gone_columns
\gset


-- 4. Rights, as far as the owner gave them and they are no MAINTAIN (version 17). Where all are taken away, that stays.

WITH held(class, oid, owner, acl) AS (
              SELECT 'pg_namespace'::regclass, oid, nspowner, nspacl FROM pg_namespace WHERE oid = ANY (:'schemas'::oid[])
    UNION ALL SELECT 'pg_type', oid, typowner, typacl FROM pg_type WHERE oid = ANY (:'types'::oid[])
    UNION ALL SELECT 'pg_class', oid, relowner, relacl FROM pg_class WHERE oid = ANY (:'relations'::oid[])
)
SELECT coalesce(json_agg(a), '[]') AS acls
FROM (
    SELECT class::oid, oid,
           array(SELECT regexp_replace(item::text, '^("([^"]|"")*"|[^"=]*)=([a-ln-zA-Z*]*)m[*]?', '\1=\3')
                 FROM unnest(acl) item
                 WHERE EXISTS (SELECT FROM aclexplode(ARRAY[item]) WHERE grantor = owner))::text AS acl,
           EXISTS (SELECT FROM aclexplode(acl) WHERE grantor <> owner) AS by_others,
           EXISTS (SELECT FROM aclexplode(acl) WHERE privilege_type = 'MAINTAIN' AND grantee <> owner) AS maintain
    FROM held WHERE acl IS NOT NULL) a
\gset

-- All roles, or those that are named in the database; of those that a server comes with, the ones that are named there
-- or that another role is a member of.
WITH named(oid) AS (
          SELECT datdba FROM pg_database WHERE datname = current_database()
    UNION SELECT nspowner FROM pg_namespace WHERE oid = ANY (:'schemas'::oid[])
    UNION SELECT typowner FROM pg_type WHERE oid = ANY (:'types'::oid[])
    UNION SELECT relowner FROM pg_class WHERE oid = ANY (:'relations'::oid[])
    UNION SELECT grantee FROM json_to_recordset(:'acls') AS a(acl text), aclexplode(nullif(acl, '{}')::aclitem[])
)
SELECT array(
    SELECT oid FROM pg_roles r
    WHERE oid = 10 OR oid IN (TABLE named)
       OR NOT :own_roles AND (rolname !~ '^pg_'
              OR EXISTS (SELECT FROM pg_auth_members JOIN pg_roles other ON other.oid IN (roleid, member)
                         WHERE r.oid IN (roleid, member) AND other.rolname !~ '^pg_'))) AS roles
\gset

SELECT has_table_privilege('pg_authid', 'SELECT') AND :passwords AS passwords
\gset
\if :passwords
    \set authid pg_authid
    \set password rolpassword
\else
    \set authid pg_roles
    \set password NULL
\endif


-- 5. What is taken off objects that are exported.

WITH relation AS (SELECT * FROM pg_class WHERE oid = ANY (:'relations'::oid[])),
att AS (
    SELECT a.*, relkind, typcollation, typstorage, to_jsonb(a) AS row
    FROM pg_attribute a JOIN relation c ON c.oid = attrelid JOIN pg_type t ON t.oid = atttypid
    WHERE relkind IN ('r', 'v') AND attnum > 0 AND attrelid || '.' || attnum <> ALL (:'gone_columns'::text[])
),
held AS (SELECT * FROM json_to_recordset(:'acls') AS a(class oid, oid oid, by_others boolean, maintain boolean)),
part(kind, class, oid, sub) AS (
              SELECT 'unlogged tables and sequences (they stay as logged ones)', 'pg_class'::regclass, oid, 0
              FROM relation WHERE relpersistence = 'u' AND relkind <> 'i'
    UNION ALL SELECT 'tablespaces (what lies there stays, in the default one)', 'pg_class', oid, 0
              FROM relation WHERE reltablespace <> 0
    UNION ALL SELECT 'options of tables, views and keys', 'pg_class', oid, 0
              FROM relation WHERE reloptions IS NOT NULL
                AND (relkind <> 'i' OR EXISTS (SELECT FROM pg_constraint WHERE conindid = relation.oid AND contype IN ('p', 'u')))
    UNION ALL SELECT 'row security', 'pg_class', oid, 0 FROM relation WHERE relrowsecurity OR relforcerowsecurity
    UNION ALL SELECT 'identity (the column stays, without its sequence)', 'pg_class', attrelid, attnum
              FROM att WHERE attidentity <> ''
    UNION ALL SELECT 'generated columns (they stay, as plain ones with the values that they have)', 'pg_class', attrelid, attnum
              FROM att WHERE attgenerated <> ''
    UNION ALL SELECT 'collations of columns', 'pg_class', attrelid, attnum
              FROM att WHERE relkind = 'r' AND attcollation <> typcollation
    UNION ALL SELECT 'collations of domains', 'pg_type', d.oid, 0
              FROM pg_type d JOIN pg_type b ON b.oid = d.typbasetype
              WHERE d.oid = ANY (:'types'::oid[]) AND d.typcollation <> b.typcollation
    UNION ALL SELECT 'storage and compression of columns', 'pg_class', attrelid, attnum
              FROM att WHERE relkind = 'r' AND (attstorage <> typstorage OR row ->> 'attcompression' <> '')
    UNION ALL SELECT 'options of columns', 'pg_class', attrelid, attnum FROM att WHERE attoptions IS NOT NULL
    UNION ALL SELECT 'grants on columns', 'pg_class', attrelid, attnum FROM att WHERE attacl IS NOT NULL
    UNION ALL SELECT 'grants that another than the owner made', class, oid, 0
              FROM held WHERE by_others
    UNION ALL SELECT 'grants of MAINTAIN', class, oid, 0
              FROM held WHERE maintain
    UNION ALL SELECT 'comments on columns of views', classoid, objoid, objsubid
              FROM pg_description JOIN att ON attrelid = objoid AND attnum = objsubid
              WHERE classoid = 'pg_class'::regclass AND relkind = 'v'
    UNION ALL SELECT 'comments on constraints of domains', classoid, objoid, objsubid
              FROM pg_description JOIN pg_constraint c ON c.oid = objoid
              WHERE classoid = 'pg_constraint'::regclass AND contypid = ANY (:'types'::oid[])
    UNION ALL SELECT DISTINCT 'security labels', classoid, objoid, objsubid FROM pg_seclabel
    -- The last ones are told once, each by the database.
    UNION ALL SELECT 'large objects', 'pg_database', d.oid, 0
              FROM pg_database d WHERE datname = current_database() AND EXISTS (SELECT FROM pg_largeobject_metadata)
    UNION ALL SELECT 'subscriptions', 'pg_database', d.oid, 0
              FROM pg_database d WHERE datname = current_database() AND EXISTS (SELECT FROM pg_subscription WHERE subdbid = d.oid)
    UNION ALL SELECT 'an encoding other than UTF8 (the texts are converted)', 'pg_database', oid, 0
              FROM pg_database WHERE datname = current_database() AND pg_encoding_to_char(encoding) <> 'UTF8'
    UNION ALL SELECT 'grants on the database', 'pg_database', oid, 0
              FROM pg_database WHERE datname = current_database() AND datacl IS NOT NULL
                AND array(SELECT item::text FROM unnest(datacl) item ORDER BY 1)
                    <> array(SELECT item::text FROM unnest(acldefault('d', datdba)) item ORDER BY 1)
    UNION ALL SELECT 'comments on the database', classoid, objoid, 0
              FROM pg_shdescription JOIN pg_database d ON d.oid = objoid
              WHERE classoid = 'pg_database'::regclass AND datname = current_database()
                AND description NOT IN ('default administrative connection database', 'default template for new databases')
    UNION ALL SELECT 'comments on roles', classoid, objoid, 0
              FROM pg_shdescription WHERE classoid = 'pg_authid'::regclass AND objoid = ANY (:'roles'::oid[])
)
SELECT coalesce(json_agg(p), '[]') AS reduced FROM (SELECT kind, class::oid, oid, sub FROM part) p
\gset


-- 6. The lists: what is refused, by kind and name, and what goes with it; and what is told of every database.

COPY (
    SELECT kind, pg_describe_object(class, oid, sub)
    FROM (SELECT 1 AS place, * FROM json_to_recordset(:'refused') AS r(kind text, class oid, oid oid, sub integer)
          UNION ALL
          SELECT 2, * FROM json_to_recordset(:'reduced') AS r(kind text, class oid, oid oid, sub integer)) listed
    ORDER BY place, kind, 2
) TO STDOUT \g refused

WITH lost AS (SELECT * FROM json_to_recordset(:'gone') AS g(class oid, oid oid, sub integer)),
further AS (
    SELECT class, oid, sub FROM lost
    EXCEPT SELECT * FROM json_to_recordset(:'refused') AS r(class oid, oid oid, sub integer)
    EXCEPT SELECT classid, objid, 0 FROM pg_depend WHERE deptype = 'e'
),
-- Parts of what is told already aren't told again: what stands in a table or a domain that goes, the indexes of keys,
-- and types but enums and domains.
whole AS (SELECT class, oid FROM lost WHERE sub = 0),
told AS (
    SELECT f.* FROM further f
        LEFT JOIN pg_class r ON class = 'pg_class'::regclass AND r.oid = f.oid
        LEFT JOIN pg_index i ON class = 'pg_class'::regclass AND i.indexrelid = f.oid
        LEFT JOIN pg_constraint c ON class = 'pg_constraint'::regclass AND c.oid = f.oid
        LEFT JOIN pg_attrdef d ON class = 'pg_attrdef'::regclass AND d.oid = f.oid
        LEFT JOIN pg_type t ON class = 'pg_type'::regclass AND t.oid = f.oid
    WHERE NOT (sub > 0 AND ('pg_class'::regclass, f.oid) IN (TABLE whole))
      AND ('pg_class'::regclass, coalesce(i.indrelid, c.conrelid, d.adrelid, 0)) NOT IN (TABLE whole)
      AND ('pg_type'::regclass, coalesce(c.contypid, 0)) NOT IN (TABLE whole)
      AND (d.oid IS NULL OR ('pg_class'::regclass, d.adrelid, d.adnum::integer) NOT IN (SELECT class, oid, sub FROM lost))
      AND (r.oid IS NULL OR r.relkind IN ('r', 'v', 'S') OR r.relkind = 'i'
           AND NOT EXISTS (SELECT FROM pg_constraint k WHERE k.conindid = r.oid))
      AND (t.oid IS NULL OR t.typtype IN ('e', 'd'))
      AND (c.oid IS NULL OR c.contype <> 't')
)
SELECT pg_describe_object(class, oid, sub) FROM told ORDER BY class, 1
\g gone

COPY (
    SELECT format('the database''s collation (%s) and character types (%s): a copy has those that it is created with',
                  datcollate, datctype)
    FROM pg_database WHERE datname = current_database()
    UNION ALL SELECT 'statistics for the planner: ANALYZE makes them anew'
    UNION ALL SELECT 'passwords of roles' WHERE NOT :'passwords'::boolean
    UNION ALL SELECT format('settings of roles and databases (ALTER ROLE .. SET, ALTER DATABASE .. SET): %s', count(*))
              FROM pg_db_role_setting JOIN pg_database ON setdatabase IN (0, pg_database.oid)
              WHERE datname = current_database() HAVING count(*) > 0
    UNION ALL SELECT format('marks of CLUSTER and replica identities: %s', count(*))
              FROM pg_class c WHERE oid = ANY (:'relations'::oid[])
                AND (relreplident NOT IN ('d', 'n') AND relkind = 'r'
                     OR EXISTS (SELECT FROM pg_index WHERE indexrelid = c.oid AND indisclustered)) HAVING count(*) > 0
) TO STDOUT \g notes

SELECT json_array_length(:'refused') + json_array_length(:'reduced') > 0 AS incomplete
\gset
