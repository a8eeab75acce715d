-- Names in quotes, with capitals, blanks, quotes, dots and letters beyond ASCII; words that SQL reserves; texts with
-- what COPY escapes; types whose text PostgreSQL writes in quotes.

CREATE SCHEMA "A b";
CREATE SCHEMA "it's ""odd"".";
CREATE SCHEMA "select";
CREATE TYPE "A b"."Größe" AS ENUM ('a''b', 'c\d', 'e"f', E'g\th', '');
CREATE DOMAIN "A b"."user" AS "A b"."Größe" DEFAULT 'a''b' CONSTRAINT "It is" CHECK (VALUE <> 'c\d');

CREATE DOMAIN "A b".letter AS "char" DEFAULT 'x';

CREATE TABLE "it's ""odd""."."left" (
    "select" integer CONSTRAINT "p.k" PRIMARY KEY,
    "Ab C" "A b"."user",
    "x""y" "A b"."Größe" DEFAULT 'e"f',
    "ж" text DEFAULT E'back\\slash ''quote'' \n line',
    c "char",
    letter "A b".letter,
    letters "char"[],
    "from" bit(3) DEFAULT B'101',
    "-- no" interval DEFAULT '1 day',
    CONSTRAINT "a b" CHECK ("select" > 0 AND "ж" IS NOT NULL)
);
CREATE TABLE "select"."table" (
    "order" integer NOT NULL CONSTRAINT "F k" REFERENCES "it's ""odd""."."left" ("select") ON DELETE CASCADE,
    "$1" text CONSTRAINT "U q" UNIQUE
);
CREATE SEQUENCE "select"."Seq 1" AS smallint INCREMENT -5 MINVALUE -100 MAXVALUE -1 START -1 CACHE 3 CYCLE;
ALTER SEQUENCE "select"."Seq 1" OWNED BY "select"."table"."order";
ALTER TABLE "select"."table" ALTER "order" SET DEFAULT nextval('"select"."Seq 1"');
CREATE SEQUENCE "select".never_called START 7;
SELECT setval('"select".never_called', 42, false);
CREATE INDEX "In dex" ON "it's ""odd""."."left" ("Ab C", ("select" + 1), "ж" COLLATE "C");
CREATE VIEW "A b"."View" AS
    SELECT l."select" AS "S", t."$1" || '; -- /* \' AS ";", U&'\0441' AS "from", array_agg(l.c) AS "c c"
    FROM "it's ""odd""."."left" l JOIN "select"."table" t ON t."order" = l."select"
    GROUP BY 1, 2;
CREATE VIEW "A b"."cat alogue" AS SELECT relkind, array_agg(relname) FROM pg_class GROUP BY 1;
CREATE VIEW "A b".tables AS SELECT table_schema, table_name FROM information_schema.tables;

INSERT INTO "it's ""odd""."."left" VALUES
    (1, 'a''b', 'e"f', E'tab\tline\nreturn\rback\\slash \\N', 'x', 'y', '{a,"\""}'),
    (2, NULL, '', '', '', NULL, NULL),
    (3, E'g\th', 'c\d', '\.', NULL, '', '{}');
INSERT INTO "select"."table" VALUES (1, NULL), (2, ''), (3, '\N');

COMMENT ON COLUMN "select"."table"."$1" IS E'a\tb\nc\\d ''e''';
COMMENT ON CONSTRAINT "U q" ON "select"."table" IS 'unique';
GRANT USAGE ON SCHEMA "A b" TO "Guest 1" WITH GRANT OPTION;
GRANT SELECT ON "it's ""odd""."."left" TO "Guest 1", "it's me";
ALTER VIEW "A b"."View" OWNER TO "it's me";
