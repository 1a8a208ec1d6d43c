"""What bench/file stands beside: one small transaction a unit, on an SQLite database.

usage: rows.py PATH UNITS JOURNAL_MODE
Each two units insert a row of a result's size and delete it again.
"""
import sqlite3
import sys

RESULT = bytes(26)


def main():
    path, units, mode = sys.argv[1], int(sys.argv[2]), sys.argv[3]
    base = sqlite3.connect(path, isolation_level=None)
    if base.execute(f"PRAGMA journal_mode={mode}").fetchone()[0] != mode:
        sys.exit(f"no journal mode {mode}")
    base.execute("PRAGMA synchronous=FULL")
    base.execute("CREATE TABLE results (seq INTEGER PRIMARY KEY, octets BLOB)")
    for unit in range(units):
        if unit % 2 == 0:
            base.execute("INSERT INTO results VALUES (?, ?)", (unit, RESULT))
        else:
            base.execute("DELETE FROM results WHERE seq = ?", (unit - 1,))
    base.close()


main()
