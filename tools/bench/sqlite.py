"""Does with SQLite what the benchmark of stores does: rows in the place of requests and elements, in the current folder."""

import sqlite3
import time

BATCH = 4096


def timed(what, work):
    start = time.perf_counter()
    work()
    print(f"SQLite, {what}: {(time.perf_counter() - start) * 1e6:.0f} us")


def main():
    database = sqlite3.connect("rows.db", isolation_level=None)
    rows = [(place % 1024, place // 1024 + 1, place, None) for place in range(49 * BATCH)]
    elements = [(0, place, 0, 1, bytes(8)) for place in range(100_000)]
    for line in (
        "pragma journal_mode=wal",
        "pragma synchronous=full",
        "create table requests(client integer, number integer, word integer, reply integer)",
        "create table elements(array integer, place integer, sent integer, received integer, state blob)",
    ):
        database.execute(line)

    def insert(table, values):
        marks = ", ".join("?" * len(values[0]))
        database.execute("begin")
        database.executemany(f"insert into {table} values({marks})", values)
        database.execute("commit")

    def single():
        for row in rows[:500]:
            insert("requests", [row])
        database.execute("delete from requests")

    def batches():
        for first in range(0, len(rows), BATCH):
            insert("requests", rows[first : first + BATCH])

    # A delivery finds its request, and keeps the reply with it: here by the number of the row, which is the fastest way.
    def replies():
        for first in range(0, len(rows), BATCH):
            values = [(place, place + 1) for place in range(first, first + BATCH)]
            database.execute("begin")
            database.executemany("update requests set reply = ? where rowid = ?", values)
            database.execute("commit")

    timed("500 rows, each in a transaction of its own", single)
    timed("200,704 rows in 49 transactions", batches)
    timed("a reply to each in 49 more transactions", replies)
    timed("100,000 rows in one transaction", lambda: insert("elements", elements))


main()
