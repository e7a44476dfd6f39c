"""The schemas of the tables, as `docs/STORED.md` states them, and how a database is compared with one."""
import sqlite3
from contextlib import closing
from functools import cache

SCHEMA_NUMBER = 3
FIRST_SCHEMA = """
CREATE TABLE setting (name TEXT NOT NULL PRIMARY KEY, value ANY NOT NULL) STRICT;
CREATE TABLE account (id INTEGER PRIMARY KEY, auth TEXT NOT NULL UNIQUE, name TEXT NOT NULL) STRICT;
CREATE TABLE app (id INTEGER PRIMARY KEY, name TEXT NOT NULL UNIQUE, agreement INTEGER) STRICT;
CREATE TABLE version (id INTEGER PRIMARY KEY, app_id INTEGER NOT NULL REFERENCES app, platform TEXT NOT NULL,
  num INTEGER NOT NULL, UNIQUE (app_id, platform, num)) STRICT;
CREATE TABLE unit (id INTEGER PRIMARY KEY, name TEXT NOT NULL UNIQUE, app_id INTEGER NOT NULL REFERENCES app,
  min_quorum INTEGER NOT NULL, target_nresults INTEGER NOT NULL, max_error_results INTEGER NOT NULL,
  max_total_results INTEGER NOT NULL, max_success_results INTEGER NOT NULL, delay_bound INTEGER NOT NULL,
  rsc_fpops_est INTEGER NOT NULL, rsc_memory_bound INTEGER NOT NULL, rsc_disk_bound INTEGER NOT NULL,
  credit INTEGER NOT NULL, status INTEGER NOT NULL) STRICT;
CREATE TABLE host (id INTEGER PRIMARY KEY, account_id INTEGER NOT NULL REFERENCES account, cpid TEXT NOT NULL,
  platforms TEXT NOT NULL, fpops INTEGER NOT NULL, memory INTEGER NOT NULL, disk INTEGER NOT NULL,
  quota INTEGER NOT NULL, held INTEGER NOT NULL, credit INTEGER NOT NULL, UNIQUE (account_id, cpid)) STRICT;
CREATE TABLE instance (unit_id INTEGER NOT NULL REFERENCES unit, num INTEGER NOT NULL,
  host_id INTEGER REFERENCES host, sent INTEGER, deadline INTEGER, lapse INTEGER NOT NULL, outcome INTEGER,
  output TEXT, place INTEGER, queued INTEGER NOT NULL, PRIMARY KEY (unit_id, num)) STRICT;
CREATE TABLE kept (host_id INTEGER PRIMARY KEY REFERENCES host, seqno INTEGER NOT NULL, text TEXT NOT NULL,
  reply TEXT NOT NULL) STRICT;
CREATE TABLE batch (kind TEXT NOT NULL, name TEXT NOT NULL, text BLOB NOT NULL, answer TEXT NOT NULL,
  PRIMARY KEY (kind, name)) STRICT;
CREATE INDEX instance_queue ON instance (queued, unit_id, num);
CREATE INDEX instance_owner ON instance (host_id, unit_id, num);
CREATE INDEX instance_sent ON instance (host_id, sent);
CREATE INDEX instance_deadline ON instance (deadline);
"""
SECOND_SCHEMA = (
    FIRST_SCHEMA
    + """
CREATE TABLE kept4 (host_id INTEGER NOT NULL REFERENCES host, slot INTEGER NOT NULL, seqno INTEGER NOT NULL,
  text TEXT NOT NULL, reply TEXT NOT NULL, PRIMARY KEY (host_id, slot)) STRICT;
"""
)
SCHEMA = (
    SECOND_SCHEMA
    + """
CREATE TABLE version_class (version_id INTEGER PRIMARY KEY REFERENCES version, class TEXT NOT NULL) STRICT;
CREATE TABLE unit_mark (unit_id INTEGER PRIMARY KEY REFERENCES unit, marked INTEGER NOT NULL,
  class TEXT) STRICT;
"""
)
# a table's columns, indexes and references
Facts = tuple[tuple[object, ...], ...]
Shape = dict[str, Facts]

TABLES = """
SELECT name, type, strict, wr FROM pragma_table_list WHERE schema = 'main' AND name NOT LIKE 'sqlite_%'
"""
COLUMNS = 'SELECT name, type, "notnull", dflt_value, pk, hidden FROM pragma_table_xinfo(?1) ORDER BY cid'
INDEXES = """
SELECT index_list.name, origin, "unique", partial, group_concat(index_info.name)
FROM pragma_index_list(?1) AS index_list JOIN pragma_index_info(index_list.name) AS index_info
GROUP BY index_list.name ORDER BY index_list.name
"""
REFERENCES = 'SELECT "from", "table", "to" FROM pragma_foreign_key_list(?1) ORDER BY 1, 2'


def shape_of(connection: sqlite3.Connection) -> Shape:
    """Returns the shape of a database. It does not depend on how the schema's text is written."""
    shape: Shape = {}
    for name, *kind in connection.execute(TABLES).fetchall():
        facts: list[tuple[object, ...]] = []
        for query in (COLUMNS, INDEXES, REFERENCES):
            facts += connection.execute(query, (name,))
        shape[name] = (tuple(kind), *facts)
    return shape


@cache
def shape_of_text(schema: str) -> Shape:
    """Returns the shape of a database with this schema."""
    with closing(sqlite3.connect(":memory:")) as connection:
        connection.executescript(schema)
        return shape_of(connection)
