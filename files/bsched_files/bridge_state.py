"""The state file of a bridge, `bridge.db`: its tables, and the statements from each version to the next.

The texts of former versions stay as they are: `NEW_FILE` makes the same tables as an upgrade of any of them.
A new column needs a new version, with a text of its own in `UPGRADES`.
"""
from .sqlite_formats import SqliteFormat

HOSTS = """
CREATE TABLE host (
  -- the key; the host_cpid is the one with which the host was made
  authenticator TEXT NOT NULL, host_cpid TEXT NOT NULL,
  hostid INTEGER,             -- the bridge's number of the host, once a client was told it
  -- the client's rpc_seqno in its last request with that number; NULL before the first one
  client_seqno INTEGER,
  copy_of INTEGER,            -- the hostid of the computer that the host is a copy of
  has_former_number INTEGER NOT NULL DEFAULT 0,  -- 1: a former version told a number, which is not known
  scheduler_hostid INTEGER,   -- bsched's number of the host in its tables, by the last reply
  last_number INTEGER NOT NULL,  -- the rpc_seqno of the last call
  open_call BLOB,             -- its bytes, where no answer came yet
  jobs_in_hand TEXT NOT NULL DEFAULT '[]',  -- those that the client may lack, as JSON, as replies have them
  -- as the last reply told them, and when
  user_name TEXT, user_credit INTEGER, host_credit INTEGER, heard_at INTEGER,
  PRIMARY KEY (authenticator, host_cpid)
) STRICT;
CREATE UNIQUE INDEX host_by_number ON host (hostid);
CREATE UNIQUE INDEX host_by_scheduler_number ON host (authenticator, scheduler_hostid);
CREATE INDEX host_of_copy ON host (authenticator, copy_of) WHERE copy_of IS NOT NULL;
CREATE INDEX host_with_open_call ON host (authenticator, host_cpid) WHERE open_call IS NOT NULL;
CREATE INDEX host_of_stranger ON host (authenticator)
  WHERE open_call IS NOT NULL AND scheduler_hostid IS NULL AND hostid IS NULL;
CREATE INDEX host_heard ON host (heard_at) WHERE scheduler_hostid IS NOT NULL;
"""
# Former bridges counted hostids here. They are random, and the row stays as it is.
NUMBERS = """
CREATE TABLE numbers (last_hostid INTEGER NOT NULL) STRICT;
INSERT INTO numbers (last_hostid) VALUES (100000);
"""
MEMBERS = """
CREATE TABLE member (
  id INTEGER PRIMARY KEY AUTOINCREMENT,  -- the user's number for statistics sites
  authenticator TEXT NOT NULL UNIQUE,
  email TEXT UNIQUE, salt BLOB, secret BLOB, cost TEXT,  -- NULL for an operator's account without a password
  name TEXT NOT NULL,
  batch TEXT UNIQUE,          -- the name of the import that makes the account; NULL for an operator's account
  is_imported INTEGER NOT NULL,  -- 0 until bsched answered that import
  cpid TEXT NOT NULL,         -- a random text, by which statistics sites know a user of several projects
  consent_at INTEGER,         -- when the user agreed to the terms
  is_exported INTEGER NOT NULL DEFAULT 0,  -- whether the user agreed to be shown by statistics sites
  created_at INTEGER NOT NULL
) STRICT;
CREATE INDEX member_open ON member (id) WHERE is_imported = 0;
CREATE INDEX member_created ON member (created_at) WHERE batch IS NOT NULL;
"""
BARRED = """
CREATE TABLE barred (            -- accounts whose computers are refused
  authenticator TEXT PRIMARY KEY, barred_at INTEGER NOT NULL,
  is_deleted INTEGER NOT NULL    -- 1 if the account was deleted, 0 if the operator barred it
) STRICT, WITHOUT ROWID;
-- a message that was in work when its account was deleted writes nothing of what was forgotten
CREATE TRIGGER host_of_deleted BEFORE INSERT ON host
  WHEN EXISTS (SELECT 1 FROM barred WHERE authenticator = NEW.authenticator AND is_deleted = 1)
  BEGIN SELECT RAISE(IGNORE); END;
CREATE TRIGGER member_of_deleted BEFORE UPDATE ON member
  WHEN EXISTS (SELECT 1 FROM barred WHERE authenticator = NEW.authenticator AND is_deleted = 1)
  BEGIN SELECT RAISE(IGNORE); END;
"""
# what pages show of users and computers
PEOPLE = """
-- what the computer said of itself in its last request, as JSON
ALTER TABLE host ADD COLUMN about TEXT;
-- as the latest reply to one of the user's hosts told it; NULL before the first one
ALTER TABLE member ADD COLUMN credit INTEGER;
-- whether others know the user as anonymous
ALTER TABLE member ADD COLUMN is_anonymous INTEGER NOT NULL DEFAULT 0;
CREATE TABLE host_day (          -- credit at the last call of a day (since 1970, in UTC)
  hostid INTEGER NOT NULL, day INTEGER NOT NULL, credit INTEGER NOT NULL, PRIMARY KEY (hostid, day)
) STRICT, WITHOUT ROWID;
CREATE TABLE member_day (        -- the same of an account, by its number
  member INTEGER NOT NULL, day INTEGER NOT NULL, credit INTEGER NOT NULL, PRIMARY KEY (member, day)
) STRICT, WITHOUT ROWID;
CREATE INDEX member_by_credit ON member (credit DESC) WHERE credit IS NOT NULL;
CREATE INDEX host_by_credit ON host (host_credit DESC, hostid)
  WHERE scheduler_hostid IS NOT NULL AND hostid IS NOT NULL;
"""
TEAMS = """
CREATE TABLE team (
  id INTEGER PRIMARY KEY AUTOINCREMENT,
  name TEXT NOT NULL,
  folded TEXT NOT NULL UNIQUE,  -- what names that look alike have in common
  founder INTEGER NOT NULL,     -- the number of a user
  created_at INTEGER NOT NULL
) STRICT;
ALTER TABLE member ADD COLUMN team INTEGER;
CREATE INDEX member_of_team ON member (team, credit) WHERE team IS NOT NULL;
"""
PREFERENCES = """
ALTER TABLE member ADD COLUMN preferences TEXT;  -- for the user's clients, as JSON; NULL if there are none
"""
CREDIT_OF_MEMBERS = """
UPDATE member SET credit = (
    SELECT coalesce(user_credit, 0) FROM host WHERE host.authenticator = member.authenticator
      AND scheduler_hostid IS NOT NULL ORDER BY heard_at DESC LIMIT 1
  );
"""
# inserts the accounts of hosts that had a reply before the table member existed
HEARD_MEMBERS = """
INSERT INTO member (authenticator, name, is_imported, cpid, created_at)
  SELECT authenticator, user_name, 1, lower(hex(randomblob(16))), heard_at FROM host AS one
  WHERE hostid IS NOT NULL AND NOT EXISTS (
    SELECT 1 FROM host AS other WHERE other.authenticator = one.authenticator AND other.hostid IS NOT NULL
      AND (other.heard_at, other.hostid) < (one.heard_at, one.hostid)
  ) ORDER BY heard_at, hostid;
"""
# Which number a client was told before is not known: it may be from earlier tables.
HOSTS_OF_VERSION_2 = (
    """
DROP INDEX host_by_number;
DROP INDEX host_with_open_call;
DROP INDEX host_heard;
ALTER TABLE host RENAME TO host_of_version_2;
"""
    + HOSTS
    + """
INSERT INTO host (authenticator, host_cpid, has_former_number, scheduler_hostid, last_number, open_call,
    jobs_in_hand, user_name, user_credit, host_credit, heard_at)
  SELECT authenticator, host_cpid, 1, hostid, last_number, open_call, jobs_in_hand, user_name, user_credit,
    host_credit, heard_at FROM host_of_version_2;
DROP TABLE host_of_version_2;
"""
)
# A host, and a host in a file of the project. The columns that are of one file get the number 1. Which jobs a
# client has is not known, and its call of the file says it.
FILES = """
DROP INDEX host_by_number;
DROP INDEX host_by_scheduler_number;
DROP INDEX host_of_copy;
DROP INDEX host_with_open_call;
DROP INDEX host_of_stranger;
DROP INDEX host_heard;
DROP INDEX host_by_credit;
DROP TRIGGER host_of_deleted;
ALTER TABLE host RENAME TO host_of_version_7;
CREATE TABLE host (
  -- no number is given twice: a late write of a host that was deleted must hit no other
  id INTEGER PRIMARY KEY AUTOINCREMENT,
  -- the key, the same in each file; the host_cpid is the one with which the host was made
  authenticator TEXT NOT NULL, host_cpid TEXT NOT NULL,
  hostid INTEGER,             -- the bridge's number of the host, once a client was told it
  -- the client's rpc_seqno in its last request with that number; NULL before the first one
  client_seqno INTEGER,
  copy_of INTEGER,            -- the hostid of the computer that the host is a copy of
  has_former_number INTEGER NOT NULL DEFAULT 0,  -- 1: a former version told a number, which is not known
  user_name TEXT,             -- as the latest reply told it
  user_credit INTEGER, host_credit INTEGER,  -- at the latest reply, over all files
  heard_at INTEGER,           -- when it came; NULL if bsched has the host in no file, as far as is known
  about TEXT,                 -- what the computer said of itself in its last request, as JSON
  day INTEGER NOT NULL DEFAULT 0, sent INTEGER NOT NULL DEFAULT 0,  -- the new jobs of a day, over all files
  UNIQUE (authenticator, host_cpid)
) STRICT;
CREATE TABLE host_file (      -- a host in a file of the project
  host INTEGER NOT NULL, file INTEGER NOT NULL,
  scheduler_hostid INTEGER,   -- bsched's number of the host in the file, by its last reply
  last_number INTEGER NOT NULL,  -- the rpc_seqno of the last call
  open_call BLOB,             -- its bytes, where no answer came yet
  jobs_in_hand TEXT NOT NULL DEFAULT '[]',  -- those that the client may lack, as JSON, as replies have them
  -- the names of those that the client may have, by the last call and its reply, with blanks between them
  jobs TEXT NOT NULL DEFAULT '',
  credit INTEGER NOT NULL DEFAULT 0,  -- of the host in this file
  called_at INTEGER NOT NULL DEFAULT 0,  -- when the latest reply came; 0: the next request calls the file
  dry_until INTEGER NOT NULL DEFAULT 0,  -- until when the host asks the file for no work
  PRIMARY KEY (host, file)
) STRICT;
CREATE TABLE member_file (    -- an account in a file of the project
  member INTEGER NOT NULL, file INTEGER NOT NULL, credit INTEGER NOT NULL, PRIMARY KEY (member, file)
) STRICT, WITHOUT ROWID;
CREATE TABLE closed_credit (  -- of hosts in tables that nobody writes any more
  authenticator TEXT NOT NULL, host_cpid TEXT NOT NULL, credit INTEGER NOT NULL,
  PRIMARY KEY (authenticator, host_cpid)
) STRICT, WITHOUT ROWID;
CREATE TABLE folded (         -- the marks of these tables
  mark TEXT PRIMARY KEY
) STRICT, WITHOUT ROWID;
INSERT INTO host (authenticator, host_cpid, hostid, client_seqno, copy_of, has_former_number, user_name,
    user_credit, host_credit, heard_at, about)
  SELECT authenticator, host_cpid, hostid, client_seqno, copy_of, has_former_number, user_name, user_credit,
    host_credit, CASE WHEN scheduler_hostid IS NOT NULL THEN coalesce(heard_at, 0) END, about
  FROM host_of_version_7 ORDER BY rowid;
INSERT INTO host_file (host, file, scheduler_hostid, last_number, open_call, jobs_in_hand, credit)
  SELECT id, 1, scheduler_hostid, last_number, open_call, jobs_in_hand, coalesce(former.host_credit, 0)
  FROM host JOIN host_of_version_7 AS former USING (authenticator, host_cpid) ORDER BY id;
INSERT INTO member_file (member, file, credit)
  SELECT id, 1, coalesce(credit, 0) FROM member WHERE is_imported = 1 AND NOT EXISTS (
    SELECT 1 FROM barred WHERE barred.authenticator = member.authenticator AND is_deleted = 1);
DROP TABLE host_of_version_7;
CREATE UNIQUE INDEX host_by_number ON host (hostid);
CREATE INDEX host_of_copy ON host (authenticator, copy_of) WHERE copy_of IS NOT NULL;
CREATE INDEX host_heard ON host (heard_at) WHERE heard_at IS NOT NULL;
CREATE INDEX host_by_credit ON host (host_credit DESC, hostid)
  WHERE heard_at IS NOT NULL AND hostid IS NOT NULL;
CREATE INDEX host_file_by_number ON host_file (file, scheduler_hostid) WHERE scheduler_hostid IS NOT NULL;
CREATE INDEX host_file_with_open_call ON host_file (host, file) WHERE open_call IS NOT NULL;
CREATE INDEX host_file_of_stranger ON host_file (host)
  WHERE open_call IS NOT NULL AND scheduler_hostid IS NULL;
CREATE TRIGGER host_of_deleted BEFORE INSERT ON host
  WHEN EXISTS (SELECT 1 FROM barred WHERE authenticator = NEW.authenticator AND is_deleted = 1)
  BEGIN SELECT RAISE(IGNORE); END;
CREATE TRIGGER host_goes AFTER DELETE ON host
  BEGIN DELETE FROM host_file WHERE host = OLD.id; END;
"""
NEW_FILE = HOSTS + NUMBERS + MEMBERS + BARRED + PEOPLE + TEAMS + PREFERENCES + FILES
# the statements from each version to the next
UPGRADES = {
    1: MEMBERS + HEARD_MEMBERS,
    2: HOSTS_OF_VERSION_2 + NUMBERS,
    3: BARRED,
    4: PEOPLE + CREDIT_OF_MEMBERS,
    5: TEAMS,
    6: PREFERENCES,
    7: FILES,
}
STATE = SqliteFormat(
    name="the state file of a bridge",
    application_id=0x62736362,  # "bscb"
    version=8,
    new_file=NEW_FILE,
    upgrades=UPGRADES,
)
