-- Makes the roles of an export folder that a server doesn't have, and grants the memberships that these have or give.
--
-- import_folder puts the rows of pg_authid and pg_auth_members of the folder into folder_role and folder_member first.
-- Roles that the server has stay as they are.

CREATE TEMP TABLE new_role AS
    SELECT * FROM folder_role
    WHERE rolname NOT IN (SELECT rolname FROM pg_catalog.pg_roles) AND rolname !~ '^pg_';

SELECT format('CREATE ROLE %I WITH %s CONNECTION LIMIT %s', rolname,
              concat_ws(' ', CASE WHEN rolsuper THEN 'SUPERUSER' ELSE 'NOSUPERUSER' END,
                             CASE WHEN rolinherit THEN 'INHERIT' ELSE 'NOINHERIT' END,
                             CASE WHEN rolcreaterole THEN 'CREATEROLE' ELSE 'NOCREATEROLE' END,
                             CASE WHEN rolcreatedb THEN 'CREATEDB' ELSE 'NOCREATEDB' END,
                             CASE WHEN rolcanlogin THEN 'LOGIN' ELSE 'NOLOGIN' END,
                             CASE WHEN rolreplication THEN 'REPLICATION' ELSE 'NOREPLICATION' END,
                             CASE WHEN rolbypassrls THEN 'BYPASSRLS' ELSE 'NOBYPASSRLS' END), rolconnlimit)
       || coalesce(' PASSWORD ' || quote_literal(rolpassword), '')
       || coalesce(' VALID UNTIL ' || quote_literal(rolvaliduntil), '')
FROM new_role
ORDER BY rolname
\gexec

-- From version 16 on a grant of a role tells whether it is inherited and may be set.
SELECT format('GRANT %I TO %I', role.rolname, member.rolname)
       || CASE WHEN current_setting('server_version_num')::integer >= 160000
               THEN format(' WITH ADMIN %s, INHERIT %s, SET %s', admin_option, inherit_option, set_option)
               WHEN admin_option THEN ' WITH ADMIN OPTION'
               ELSE '' END
FROM folder_member JOIN folder_role role ON role.oid = roleid JOIN folder_role member ON member.oid = folder_member.member
WHERE role.oid IN (SELECT oid FROM new_role) OR member.oid IN (SELECT oid FROM new_role)
ORDER BY role.rolname, member.rolname
\gexec
