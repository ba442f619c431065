"""The table of a store, for scripts that write or read one by themselves, by SQLite. docs/FORMAT.md
describes it. Nobody else may have the file open.
"""
import contextlib
import os
import sqlite3

KEPT = "CREATE TABLE IF NOT EXISTS kept (place INTEGER PRIMARY KEY, payload BLOB NOT NULL) STRICT"
APPEND = "INSERT INTO kept (place, payload) VALUES (?1, ?2)"
WORD = "table:"


def is_table(store):
    """Whether this word, as the program takes it, means a store that is a table."""
    return store.startswith(WORD)


def file_of(store):
    """The file of a store, by the word that the program takes."""
    return store.removeprefix(WORD)


def connected(path):
    """A connection to the database of a file, which is closed at the end."""
    return contextlib.closing(sqlite3.connect(path, isolation_level=None))


def rows(path):
    """The places and payloads of the table, in order."""
    with connected(path) as connection:
        return connection.execute("SELECT place, payload FROM kept ORDER BY place").fetchall()


def append(path, records):
    """Adds these records to the table, which is made if it is missing, in one transaction."""
    with connected(path) as connection:
        connection.execute("BEGIN")
        connection.execute(KEPT)
        [(place,)] = connection.execute("SELECT count(*) FROM kept")
        connection.executemany(APPEND, enumerate(records, place))
        connection.execute("COMMIT")


def add_row(path, place, payload):
    """Adds a row at this place, to the table that is made if it is missing."""
    with connected(path) as connection:
        connection.execute(KEPT)
        connection.execute(APPEND, (place, payload))


def is_sound(path):
    """Whether SQLite finds nothing wrong with the database."""
    with connected(path) as connection:
        return connection.execute("PRAGMA integrity_check").fetchall() == [("ok",)]


def has_log(path):
    """Whether there is a log beside the file, which then is needed to read it."""
    return os.path.exists(path + "-wal")
