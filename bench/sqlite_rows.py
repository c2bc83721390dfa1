#!/usr/bin/env python3
"""Microseconds of a create and of a get by SQLite in memory with prepared statements.

Usage: sqlite_rows.py ROWS CREATES GETS. Processor time per operation, with ROWS rows there, each a
raw id, a number and a small document as text; the keys come in a random order.
"""
import random
import sqlite3
import sys
import time

rows, creates, gets = (int(word) for word in sys.argv[1:4])
DOCUMENT = '{"t":{"title":"Sales"},"type":"t"}'

order = random.Random(1)
raws = [f"t:{order.getrandbits(64):016x}" for _ in range(rows + creates)]

base = sqlite3.connect(":memory:", isolation_level=None)
base.execute("create table rows (raw text primary key, seq integer, doc text) without rowid")
insert = "insert into rows values (?, ?, ?)"
base.execute("begin")
base.executemany(insert, ((raws[n], n, DOCUMENT) for n in range(rows)))
base.execute("commit")

keys = [(raws[rows + n], rows + n, DOCUMENT) for n in range(creates)]
start = time.process_time()
for row in keys:
    base.execute(insert, row)
create = (time.process_time() - start) / creates

keys = [(raws[n % rows],) for n in range(gets)]
start = time.process_time()
for key in keys:
    base.execute("select raw, seq, doc from rows where raw = ?", key).fetchone()
get = (time.process_time() - start) / gets

print(f"{create * 1e6:.3f} {get * 1e6:.3f}")
