"""Stores of the versions before the newest, written by SQLite's own library from an office of the model, and brought over by
the program: scripts/beside.

The schema is that of docs/TABLES.md, of which an old one has the columns of `rows.OLD_COLUMNS`.
"""
import os
import re
import sqlite3

from .files import TOP
from .rows import interchange_rows, rows_of
from .rules import NEWEST

PAGE = os.path.join(TOP, 'docs/TABLES.md')


def schema_of(version):
    """The statements that make the tables of a version."""
    with open(PAGE, encoding='utf-8') as file:
        schema = re.search(r'```sql\n(CREATE TABLE .*?)```', file.read(), re.S).group(1)
    return schema if version == NEWEST else schema.replace(', kilos INTEGER NOT NULL', '')


def write_store(path, office, standing=None):
    """Makes the store of an office. Its interchanges stand in the order in which they came, under the rowids 1, 2, 3 and so
    on, unless others are given: pairs of a rowid and a row."""
    store = sqlite3.connect(path)
    try:
        store.executescript(schema_of(office.version))
        for table, rows in rows_of(office).items():
            for row in rows if table != 'interchange' else []:
                store.execute('INSERT INTO %s VALUES (%s)' % (table, ', '.join('?' * len(row))), row)
        for rowid, row in standing or enumerate(interchange_rows(office), start=1):
            store.execute(
                'INSERT INTO interchange (rowid, partner, number, body, reply) VALUES (?, ?, ?, ?, ?)', (rowid, *row))
        store.commit()
    finally:
        store.close()
