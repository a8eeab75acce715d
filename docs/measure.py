#!/usr/bin/env python3
"""Measures psql, pg_catcmp, pg_dump in each format, and pg_restore, on some 200 MB of rows, beside cp -r and cmp of the same
files; and psql, pg_dump -Fc, pg_restore -l and pg_restore -d on archives of 1,000 to 100,000 entries.

    docs/measure.py PROGRAM FOLDER [rows|entries]

PROGRAM is the built program (or ./pgtools), FOLDER a folder for what is made, with 3 GB of room. Each line tells the
seconds on the clock, the processor seconds and the most memory in MB of one run; each command is run three times, but
pg_catcmp and cmp in turn, nine times each, and those on entries once.
"""
import os
import shutil
import subprocess
import sys
import time

EMPTY = os.path.join(os.path.dirname(os.path.abspath(__file__)), "..", "examples", "empty")
ROWS = 2_000_000


def script(path):
    """Two tables of 2,000,000 rows each, of some 50 bytes, with a primary key; the second refers to the first."""
    with open(path, "w") as out:
        out.write("CREATE TABLE public.a (id integer NOT NULL, name text, note text);\n")
        out.write("CREATE TABLE public.b (id integer NOT NULL, a integer, name text);\n")
        out.write("COPY public.a (id, name, note) FROM stdin;\n")
        for i in range(ROWS):
            out.write(f"{i}\tname of number {i}\tsome further words {i % 977}\n")
        out.write("\\.\nCOPY public.b (id, a, name) FROM stdin;\n")
        for i in range(ROWS):
            out.write(f"{i}\t{(i * 7) % ROWS}\tname of number {i} in the second table\n")
        out.write("\\.\n")
        for table in "ab":
            out.write(f"ALTER TABLE ONLY public.{table}\n    ADD CONSTRAINT {table}_pkey PRIMARY KEY (id);\n")
        out.write("ALTER TABLE ONLY public.b\n    ADD CONSTRAINT b_a_fkey FOREIGN KEY (a) REFERENCES public.a(id);\n")


def tables(path, count):
    """Tables without rows: each is an entry of an archive, and its rows another."""
    with open(path, "w") as out:
        for i in range(count // 2):
            out.write(f"CREATE TABLE public.t{i} (\n    id integer NOT NULL,\n    name text\n);\n")


def size(folder):
    return sum(os.path.getsize(os.path.join(at, f)) for at, _, fs in os.walk(folder) for f in fs)


def run(label, words, prepare=None, out=None, times=3):
    for _ in range(times):
        if prepare:
            prepare()
        pid = os.fork()
        start = time.time()
        if pid == 0:
            if out:
                os.dup2(os.open(out, os.O_WRONLY | os.O_CREAT | os.O_TRUNC), 1)
            os.execvp(words[0], words)
        _, status, usage = os.wait4(pid, 0)
        spent = usage.ru_utime + usage.ru_stime
        print(f"{label}: {time.time() - start:.2f} s, {spent:.2f} s, {usage.ru_maxrss / 1024:.0f} MB, status {os.waitstatus_to_exitcode(status)}", flush=True)


def entries(program, folder):
    at = {name: os.path.join(folder, name) for name in ("tables.sql", "tables", "tables.dump", "tables.back")}
    os.makedirs(folder, exist_ok=True)
    for count in (1_000, 10_000, 100_000):
        for name in ("tables", "tables.back"):
            shutil.rmtree(at[name], ignore_errors=True)
            shutil.copytree(EMPTY, at[name])
        tables(at["tables.sql"], count)
        print(f"{count} entries")
        run("psql", [program, "psql", "-d", at["tables"], "-f", at["tables.sql"]], times=1)
        run("pg_dump -Fc", [program, "pg_dump", "-Fc", "-f", at["tables.dump"], at["tables"]], times=1)
        run("pg_restore -l", [program, "pg_restore", "-l", at["tables.dump"]], out=os.path.join(folder, "tables.list"), times=1)
        run("pg_restore -d", [program, "pg_restore", "-d", at["tables.back"], at["tables.dump"]], times=1)
        run("pg_catcmp", [program, "pg_catcmp", at["tables"], at["tables.back"]], times=1)


def rows(program, folder):
    at = {name: os.path.join(folder, name) for name in ("script.sql", "made", "copy", "back")}
    os.makedirs(folder, exist_ok=True)
    script(at["script.sql"])

    def fresh(name):
        shutil.rmtree(at[name], ignore_errors=True)

    def opening(name="made"):
        fresh(name)
        shutil.copytree(EMPTY, at[name])

    print(f"script: {os.path.getsize(at['script.sql'])} bytes")
    run("psql", [program, "psql", "-d", at["made"], "-f", at["script.sql"]], opening)
    print(f"folder: {size(at['made'])} bytes")
    run("cp -r", ["cp", "-r", at["made"], at["copy"]], lambda: fresh("copy"))
    run("cp -r, sync", ["sh", "-c", f"cp -r {at['made']} {at['copy']} && sync {at['copy']}/* {at['copy']}/data/*"], lambda: fresh("copy"))
    compared = ["sh", "-c", f"for f in {at['made']}/data/*; do cmp $f {at['copy']}/data/$(basename $f); done"]
    for _ in range(9):
        run("pg_catcmp", [program, "pg_catcmp", at["made"], at["copy"]], times=1)
        run("cmp", compared, times=1)
    run("pg_dump", [program, "pg_dump", at["made"]], None, os.path.join(folder, "dump.sql"))
    for kind, name in (("p", "file.sql"), ("c", "file.dump"), ("d", "directory")):
        target = os.path.join(folder, name)
        shutil.rmtree(target, ignore_errors=True)
        run(f"pg_dump -F{kind} -f", [program, "pg_dump", f"-F{kind}", "-f", target, at["made"]])
    restored = [program, "pg_restore", "-d", at["back"], os.path.join(folder, "file.dump")]
    run("pg_restore -d", restored, lambda: opening("back"))


def main(program, folder, what=None):
    if what != "entries":
        rows(program, folder)
    if what != "rows":
        entries(program, folder)


main(*sys.argv[1:])
