"""How the file of a desk is read, by Python's SQLite: the rows of its tables, without the program."""
from typing import Any

from model.facts import ORDERS, SCHEMA_VERSION, TABLES
from model.rows import ROWS, Tables

try:
    import sqlite3
except ImportError:
    raise ImportError("python3 has no module sqlite3 (Debian: libpython3-stdlib)") from None
if sqlite3.sqlite_version_info < (3, 37):
    raise ImportError("python3 has a module sqlite3 that does not know STRICT tables: they came with SQLite 3.37 (Debian: libsqlite3-0)")


def connect(path: str, words: str = "") -> sqlite3.Connection:
    """The file as a database, each byte of a text as one character."""
    connection = sqlite3.connect(f"file:{path}?{words}", uri=True, isolation_level=None)
    connection.text_factory = lambda raw: raw.decode("latin-1")
    return connection


def columns_of(connection: sqlite3.Connection) -> dict[str, list[str]]:
    """The columns of each table, as the schema of the file has them."""
    names = [name for name, in connection.execute("SELECT name FROM sqlite_schema WHERE type = 'table' ORDER BY rowid")]
    return {name: [row[1] for row in connection.execute(f"PRAGMA table_info({name})")] for name in names}


def statements_of(connection: sqlite3.Connection) -> list[str]:
    """The statements that made the tables, indexes and views of the file, in order."""
    return [it for it, in connection.execute("SELECT sql FROM sqlite_schema WHERE sql IS NOT NULL ORDER BY rowid")]


def are_desks(connection: sqlite3.Connection) -> bool:
    """Whether a file has the tables and the index of a version, in one of the orders in which they may stand, and nothing more; and whether they lie in it in the
    order in which they are listed."""
    roots = [it for it, in connection.execute("SELECT rootpage FROM sqlite_schema ORDER BY rowid")]
    made = statements_of(connection)
    return roots == sorted(roots) and any(made in orders for orders in ORDERS.values())


def version_of(connection: sqlite3.Connection) -> int:
    """Of which version of the schema the tables are, by their names; the newest, where they are those of none."""
    names = tuple(columns_of(connection))
    return next((version for version, tables in TABLES.items() if tables == names), SCHEMA_VERSION)


def tables_of(connection: sqlite3.Connection) -> Tables:
    """All rows of the desk's tables, each table in the order in which its rows were written."""
    version = version_of(connection)

    def rows_of(name: str) -> list[Any]:
        """The rows of a table, none where the version has no such table."""
        found = connection.execute(f"SELECT * FROM {name} ORDER BY rowid") if name in TABLES[version] else []
        return [ROWS[name](*row) for row in found]

    return Tables(*map(rows_of, ROWS), version=version)


def read_tables(path: str) -> Tables:
    """What the file alone holds, without what may lie beside it."""
    connection = connect(path, "immutable=1")
    try:
        return tables_of(connection)
    finally:
        connection.close()
