"""The average credit of users and hosts of the tables, in the file of averages."""
from bsched_files.averages import AveragesFile, Kept

from .users import Host, User


class Averages(AveragesFile):
    """The file of averages, with the users and hosts of copies."""

    def user(self, user: User, moment: int) -> tuple[int, int]:
        """Returns the number of a user, and since when the user is known."""
        firsts = [host.first_sent for host in user.hosts.values() if host.first_sent is not None]
        known = [len(self.users) + 1, min([moment, *firsts])]
        number, created = self.users.setdefault(self.digest(user.authenticator), known)
        return number, created

    def host(self, user: User, host: Host, moment: int) -> Kept:
        """Returns what is kept about a host, after taking in what the tables say about it."""
        name = self.digest(user.authenticator, host.cpid)
        if name not in self.hosts:
            created = moment if host.first_sent is None else min(moment, host.first_sent)
            self.hosts[name] = Kept(len(self.hosts) + 1, created, [])
        self.hosts[name].hear(host.calls, host.last_sent, host.millicredits, moment)
        return self.hosts[name]
