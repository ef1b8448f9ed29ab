"""Restarts each store that the benchmark made in the current folder by 1, 2 and 4 workers, five times by turns and each time in a process of its own;
and reads as many rows with SQLite in each turn. Prints the medians, with the least and the greatest times."""

import os
import re
import sqlite3
import statistics
import subprocess
import sys
import time

TURNS = 5
STORES = ("log6", "log12", "log24", "log24-16", "log24-1", "image25", "image50", "image100")
WORKERS = (1, 2, 4)
ROWS = (196_608, 100_000)


def restart(program, store, workers):
    """The microseconds that a restart took, and the most kilobytes that its process had with its blanks, and once the store was back."""
    lines = subprocess.run([program, store, str(workers)], check=True, capture_output=True, text=True).stdout
    took = int(re.search(r"restarted in (\d+) us", lines)[1])
    return took, *(int(size) for size in re.findall(r"(\d+) kB", lines))


def make_rows(count):
    """A database with so many rows, each with a client, a number and a word."""
    database = sqlite3.connect(f"rows{count}.db", isolation_level=None)
    database.execute("drop table if exists requests")
    database.execute("create table requests(client integer, number integer, word integer)")
    database.execute("begin")
    database.executemany("insert into requests values(?, ?, ?)", [(place % 1024, place // 1024 + 1, place) for place in range(count)])
    database.execute("commit")
    database.close()


def read_rows(count):
    """The microseconds that it took to read them."""
    start = time.perf_counter()
    database = sqlite3.connect(f"rows{count}.db")
    for _ in database.execute("select client, number, word from requests"):
        pass
    return (time.perf_counter() - start) * 1e6


def told(times):
    return f"{statistics.median(times):.0f} us, {min(times):.0f} to {max(times):.0f}"


for count in ROWS:
    make_rows(count)
restarts = {(store, workers): [] for store in STORES for workers in WORKERS}
readings = {count: [] for count in ROWS}
for _ in range(TURNS):
    for store, workers in restarts:
        restarts[store, workers].append(restart(sys.argv[1], store, workers))
    for count in ROWS:
        readings[count].append(read_rows(count))
for (store, workers), runs in restarts.items():
    size = sum(os.path.getsize(f"{store}/{half}") for half in os.listdir(store))
    blanks, back = (max(run[place] for run in runs) for place in (1, 2))
    print(f"{store} by {workers}: {size} bytes, restarted in {told([run[0] for run in runs])}; {blanks} kB at most with its blanks, {back} kB once it is back")
for count, times in readings.items():
    print(f"SQLite: {count} rows read in {told(times)}")
