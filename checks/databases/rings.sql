-- Views that need each other, in a ring of three and one of two; and a table whose default needs its own sequence.

CREATE SCHEMA ring;
CREATE TYPE ring.kind AS ENUM ('a', 'b');
CREATE TABLE ring.t (id serial PRIMARY KEY, kind ring.kind);
INSERT INTO ring.t (kind) VALUES ('a'), ('b');

CREATE VIEW ring.a AS SELECT 1 AS n, 'a'::ring.kind AS kind;
CREATE VIEW ring.b AS SELECT n, kind FROM ring.a;
CREATE VIEW ring.c AS SELECT n, kind FROM ring.b;
CREATE OR REPLACE VIEW ring.a AS SELECT id AS n, kind FROM ring.t UNION SELECT n, kind FROM ring.c;
CREATE VIEW ring.d AS SELECT 1 AS x, 'text'::text AS "Y y";
CREATE VIEW ring.e AS SELECT x, "Y y" FROM ring.d WHERE x IN (SELECT n FROM ring.a);
CREATE OR REPLACE VIEW ring.d AS SELECT x, "Y y" FROM ring.e;
CREATE VIEW ring.behind AS SELECT a.n, d.x FROM ring.a a, ring.d d;

COMMENT ON VIEW ring.b IS 'on a ring';
GRANT SELECT ON ring.c TO clerk;
ALTER VIEW ring.d OWNER TO keeper;
