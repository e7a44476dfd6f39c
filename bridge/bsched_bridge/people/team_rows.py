"""How a user leaves a team, in the rows of the state file. A deleted account leaves its team, too."""
import sqlite3


def leave(connection: sqlite3.Connection, number: int) -> None:
    """Lets the user with a number leave the team, within a transaction."""
    row = connection.execute("SELECT team FROM member WHERE id = ?", (number,)).fetchone()
    if row is None or row[0] is None:
        return
    team = row[0]
    connection.execute("UPDATE member SET team = NULL WHERE id = ?", (number,))
    heir = connection.execute("SELECT min(id) FROM member WHERE team = ?", (team,)).fetchone()[0]
    if heir is None:
        connection.execute("DELETE FROM team WHERE id = ?", (team,))
    else:
        connection.execute("UPDATE team SET founder = ? WHERE id = ? AND founder = ?", (heir, team, number))


def leave_by_key(connection: sqlite3.Connection, authenticator: str) -> None:
    """Lets the user of an account leave the team, within a transaction."""
    row = connection.execute("SELECT id FROM member WHERE authenticator = ?", (authenticator,)).fetchone()
    if row is not None:
        leave(connection, row[0])
