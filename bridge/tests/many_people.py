"""Many users with a computer each, as a bridge knows them."""
from bridges import Bridge

from bsched_bridge.scheduler.messages import Reply


def people(bridge: Bridge, count: int) -> None:
    """Inserts users with a computer each. The greater the number, the more credit."""
    with bridge.file.transaction() as connection:
        for number in range(count):
            connection.execute(
                "INSERT INTO host (authenticator, host_cpid, hostid, user_name, user_credit, host_credit, "
                "heard_at) VALUES (?, 'c', ?, 'x', ?, ?, ?)",
                (f"k{number}", 200_000 + number, number * 1000, number * 1000, number),
            )
            connection.execute(
                "INSERT INTO host_file (host, file, scheduler_hostid, last_number) "
                "SELECT id, 1, ?, 1 FROM host WHERE hostid = ?",
                (number + 1, 200_000 + number),
            )
            connection.execute(
                "INSERT INTO member (authenticator, name, is_imported, cpid, created_at, credit) "
                "VALUES (?, ?, 1, 'c', 0, ?)",
                (f"k{number}", f"User {number:03}", number * 1000),
            )


def reply(hostid: int, user: int, host: int) -> Reply:
    """Returns a reply with this credit."""
    return Reply(hostid, "Ann", user, host, 60, "enough", [], [], [], 1)
