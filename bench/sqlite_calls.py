"""The object calls of `calls_by_rows.py`, and the same work by SQLite in memory with prepared
statements and the attributes as a column of JSON text. Run by itself it prints the seconds of
processor time of each work, of a find for one, as an object of JSON."""
import json
import sqlite3
import time


MANY = 100_000
# So many of each of four calls fit into the longest input.
WHOLE = 90_000
FIND_KINDS = {
    "a page": {},
    "a page of those that a filter keeps": {"filter": "t.attributes.n >= 1"},
    "a page by time, the latest first": {"sort": "updated_at", "order": "desc"},
}


def id_at(place):
    """The id at this place of an order that mixes them; no two of the first 2^20 are the same."""
    return f"{place * 7919 % (1 << 20):05x}"


def create(name):
    return {"do": "create", "type": "t", "id": name, "attributes": {"n": 1}}


def get(name):
    return {"do": "get", "type": "t", "id": name}


def update(name):
    return {"do": "update", "type": "t", "id": name, "attributes": {"n": 2}}


def delete(name):
    return {"do": "delete", "type": "t", "id": name}


def over(call, rows, count):
    """So many calls, over the objects of so many creates in turn."""
    return (call(id_at(place % rows)) for place in range(count))


TABLE = """create table objects (raw text primary key, seq integer, type text, attributes text,
"references" text, core text, updated_at text) without rowid"""
INSERT = "insert into objects values (?, ?, 't', ?, '[]', '7.12.0', null)"
SELECT = "select * from objects where raw = ?"
UPDATE = "update objects set attributes = json_patch(attributes, ?), seq = ? where raw = ? returning *"
DELETE = "delete from objects where raw = ?"


def opened():
    base = sqlite3.connect(":memory:", isolation_level=None)
    base.execute(TABLE)
    return base


def done(base, seq, kind, raw, text):
    """What the statement of a call gives."""
    if kind == "create":
        return base.execute(INSERT, (raw, seq, text)).rowcount
    if kind == "get":
        return base.execute(SELECT, (raw,)).fetchone()
    if kind == "update":
        return base.execute(UPDATE, (text, seq, raw)).fetchone()
    return base.execute(DELETE, (raw,)).rowcount


def statement(call):
    """The kind, raw id and text of attributes of a call."""
    return call["do"], f"t:{call['id']}", json.dumps(call.get("attributes"))


def alone(work):
    """Seconds of the statements, with all that they take made before."""
    statements = [statement(call) for call in work]
    base = opened()
    start = time.process_time()
    for seq, (kind, raw, text) in enumerate(statements):
        if not done(base, seq, kind, raw, text):
            raise SystemExit(f"SQLite: no {kind} of {raw}")
    return time.process_time() - start


def with_lines(work):
    """Seconds of the statements, each call read from its line and answered with one."""
    texts = [json.dumps({"line": "call", "call": call}) for call in work]
    base = opened()
    start = time.process_time()
    for seq, line in enumerate(texts):
        answer = done(base, seq, *statement(json.loads(line)["call"]))
        json.dumps({"answer": answer, "at": seq, "line": "answer"})
    return time.process_time() - start


def find(rows, more, finds):
    """Seconds of a find of a page of 20 with the count of all that fit, of so many finds."""
    base = opened()
    base.execute("begin")
    base.executemany(INSERT, ((f"t:{id_at(n)}", n, '{"n":1}') for n in range(rows)))
    base.execute("commit")
    fits = "type = 't'"
    if "filter" in more:
        fits += " and json_extract(attributes, '$.n') >= 1"
    order = "ifnull(updated_at, '') desc, raw" if "sort" in more else "raw"
    page = f"select * from objects where {fits} order by {order} limit 20"
    count = f"select count(*) from objects where {fits}"

    start = time.process_time()
    for _ in range(finds):
        if len(base.execute(page).fetchall()) != 20 or base.execute(count).fetchone() != (rows,):
            raise SystemExit("SQLite: not the page that was asked for")
    return (time.process_time() - start) / finds


def main():
    work = [call for kind in (create, get, update, delete) for call in over(kind, WHOLE, WHOLE)]
    took = {"alone": alone(work), "with lines": with_lines(work)}
    for what, more in FIND_KINDS.items():
        took[what] = find(MANY, more, 20)
    print(json.dumps(took))


if __name__ == "__main__":
    main()
