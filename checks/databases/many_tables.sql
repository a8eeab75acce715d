-- 200 tables, each with a key, an index and a foreign key to another one, and 20 rows.

SELECT format('CREATE TABLE t%s (id serial PRIMARY KEY, parent integer, label text NOT NULL)', n),
       format('CREATE INDEX t%1$s_by_label ON t%1$s (label)', n),
       format('INSERT INTO t%s (parent, label) SELECT k %% 20 + 1, md5(k::text) FROM generate_series(1, 20) k', n)
FROM generate_series(1, 200) n
\gexec
SELECT format('ALTER TABLE t%s ADD FOREIGN KEY (parent) REFERENCES t%s', n, n / 2) FROM generate_series(2, 200) n
\gexec
