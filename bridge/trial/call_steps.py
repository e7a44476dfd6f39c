"""What BOINC's client does with calls: the first part of `bridge/try`, whose head lists the steps."""
import json
import threading
from collections.abc import Callable
from pathlib import Path

from . import project
from .programs import Client
from .proxy import Fault, Message
from .runs import URL, Run, is_request_of, known, seen, wants, workunit_of

NEW_NAME = "ab" * 16
EMAIL, PASSWORD, WRONG = "carol@sums.example", "secret 1", "secret 2"


class Calls(Run):
    """The steps of the trial, and the programs that they work on."""

    def __init__(self, program: str, folder: Path):
        super().__init__(program, folder)
        self.ann = self.client("ann", project.ACCOUNTS["Ann"])
        self.bob = self.client("bob", project.ACCOUNTS["Bob"])
        self.clients = [self.ann, self.bob]
        self.hosts: dict[Client, int] = {}  # bsched's numbers

    def begin(self) -> None:
        """Makes the project and starts all programs."""
        super().begin()
        for client in self.clients:
            client.start()

    # ---- What the steps share

    def until_it_has(self, client: Client, workunit: str) -> str:
        """Waits until a client has a job of a workunit, and returns the job's name."""

        def held() -> str | None:
            return next((name for name in client.tasks() if workunit_of(name) == workunit), None)

        self.until(held, f"{client.name} has a job of {workunit}", client)
        return held() or ""

    def result_of(self, client: Client, workunit: str) -> tuple[str, list[str]] | None:
        """Returns the result of a workunit in the statement of a client's host."""
        statement = self.scheduler.statement(self.hosts[client])
        return next(((name, line) for name, line in statement.items() if workunit_of(name) == workunit), None)

    def line_of(self, client: Client, workunit: str) -> list[str]:
        """Returns the line of that result."""
        result = self.result_of(client, workunit)
        assert result is not None
        return result[1]

    def credit(self, client: Client) -> str:
        """Returns the credit of a client's host."""
        return self.scheduler.statement(self.hosts[client])["total"][-1]

    def is_valid(self, workunit: str) -> Callable[[], bool]:
        """Returns the test whether each client's result of a workunit is valid."""
        return lambda: all(
            (result := self.result_of(client, workunit)) and result[1][5] == "1" for client in self.clients
        )

    # ---- The steps

    def attach(self) -> None:
        """Both clients attach. The first reply to each is lost."""
        self.give("first", 2)
        faults = [self.before_bridge.plan(Fault(is_request_of(client))) for client in self.clients]
        for client in self.clients:
            client.attach()
        for client, fault in zip(self.clients, faults):
            self.until(fault.met.is_set, f"a first reply to {client.name} is lost")
            lost = self.before_bridge_messages(client)[0].answered.decode()
            seen(f"{client.name}: attached, and the first reply, with {lost.count('<result>')} job, is lost")
        for client in self.clients:
            name = self.until_it_has(client, "first")
            lost = self.before_bridge_messages(client)[0].answered.decode()
            wants(f"<name>{name}</name>" in lost, f"{client.name} has the job of the lost reply")
            hostid = lost.partition("<hostid>")[2].partition("<")[0]
            self.hosts[client] = next(host for host in (1, 2) if name in self.scheduler.statement(host))
            seen(f"{client.name}: is host {hostid}, and has {name}, the job of the lost reply")
        wants(sorted(self.hosts.values()) == [1, 2], f"there are two hosts: {self.hosts.values()}")

    def before_bridge_messages(self, client: Client) -> list[Message]:
        """Returns the requests of a client that were answered."""
        return [
            message
            for message in self.before_bridge.messages
            if is_request_of(client)(message) and message.answer
        ]

    def quorum(self) -> None:
        """Both clients report. The reply to the first report of each is lost."""
        faults = [
            self.before_bridge.plan(Fault(is_request_of(client, "<stderr_out>"))) for client in self.clients
        ]
        for client, fault in zip(self.clients, faults):
            self.until(fault.met.is_set, f"a reply to a report of {client.name} is lost", client)
            seen(f"{client.name}: the reply to its report is lost")
        self.until(self.is_valid("first"), "both results are valid", *self.clients)
        self.until(
            lambda: not any(client.tasks() for client in self.clients),
            "both forget what they reported",
            *self.clients,
        )
        for client in self.clients:
            wants(self.credit(client) == "5.000", f"{client.name} has credit once: {self.credit(client)}")
            seen(
                f"{client.name}: reported again, acknowledged; its result is valid, credit "
                f"{self.credit(client)}"
            )

    def lost(self) -> None:
        """Ann's client loses its jobs and gets them again."""
        self.give("lost", 2)
        name = self.until_it_has(self.ann, "lost")
        before = self.line_of(self.ann, "lost")
        seen(f"ann: has {name}; its client loses all jobs (reset)")
        self.ann.command("--project", URL, "reset")
        wants(not self.ann.tasks(), "the reset took all jobs")
        wants(self.until_it_has(self.ann, "lost") == name, "the same job comes again")
        wants(self.line_of(self.ann, "lost") == before, "the job is sent again as it was")
        seen(f"ann: has {name} again, with the same deadline")

    def aborted(self) -> None:
        """Bob's client aborts a job. Ann's client then does another instance."""
        self.ann.command("--project", URL, "nomorework")
        self.give("given_up", 1)
        name = self.abort(self.bob, "given_up")
        self.ann.command("--project", URL, "allowmorework")
        other = self.until_it_has(self.ann, "given_up")
        wants(other != name, "another instance goes to Ann")
        self.until(lambda: self.line_of(self.ann, "given_up")[5] == "1", "Ann's result is valid", self.ann)
        seen(f"ann: was given {other} in its place, and it is valid")

    def abort(self, client: Client, workunit: str) -> str:
        """Has a client abort its job of a workunit and report it. Returns the job's name."""
        name = self.until_it_has(client, workunit)
        client.command("--task", URL, name, "abort")
        self.until(
            lambda: self.line_of(client, workunit)[4] == "3", "the abort is reported as an error", client
        )
        self.until(lambda: name not in client.tasks(), "the abort is acknowledged", client)
        seen(f"{client.name}: aborted {name}, which counts as an error")
        return name

    def stopped(self) -> None:
        """A workunit fails, and Ann's client is told to stop its job of it."""
        self.give("failing", 2, errors=0)
        name = self.until_it_has(self.ann, "failing")
        self.abort(self.bob, "failing")
        self.until(lambda: name not in self.ann.tasks(), "Ann's client stops and reports", self.ann)
        wants(
            self.line_of(self.ann, "failing")[4:6] == ["3", "3"],
            "Ann's report is an error that is not judged",
        )
        seen(f"ann: was told to stop {name}, since its workunit has failed, and reported it")

    def bridge_killed(self) -> None:
        """Kills the bridge between a call and its answer: once when the answer acknowledges a report, and
        once when it brings a job.
        """
        fault = self.held_answer('"result_ack":["held_')
        self.give("held", 2)
        for client in self.clients:
            self.until_it_has(client, "held")
        answer = self.killed_at(fault, "that acknowledges a report")
        name = known(json.loads(answer)["result_ack"][0])
        self.until(lambda: name not in self.ann.tasks(), "the report is acknowledged", self.ann)
        seen(f"ann: reported {name} again; it was recorded once, and is acknowledged")
        fault = self.held_answer('"name":"next_')
        self.give("next", 2)
        answer = self.killed_at(fault, "that brings a job")
        name = known(json.loads(answer)["results"][0]["name"])
        wants(self.until_it_has(self.ann, "next") == name, "Ann has the job of the answer that nobody heard")
        seen(f"ann: has {name}, the job of that answer")

    def held_answer(self, text: str) -> Fault:
        """Plans that bsched's next answer to a call of Ann with this text in it is held on its way. A quick
        client may call at once, so this comes before the work.
        """
        fits = is_request_of(self.ann)
        return self.behind_bridge.plan(
            Fault(lambda message: fits(message) and text.encode() in (message.answer or b""), is_held=True)
        )

    def killed_at(self, fault: Fault, what: str) -> bytes:
        """Kills the bridge while an answer of bsched to Ann is held on its way. Returns the answer."""
        self.until(fault.met.is_set, f"bsched gives Ann an answer {what}", self.ann)
        self.until(lambda: not any(client.downloads() for client in self.clients), "no client downloads")
        self.bridge.kill()
        held = fault.hit
        seen(
            f"bridge: killed, when bsched had answered call {json.loads(held.body)['rpc_seqno']} of Ann "
            f"by one {what}"
        )
        fault.let_go.set()
        count = len(self.behind_bridge.messages)
        self.bridge.start()

        def calls() -> list[Message]:
            """Returns the calls that were answered since. The bridge may ask first whose scheduler it is."""
            return [one for one in self.behind_bridge.messages[count:] if one.body and one.answer]

        self.until(calls, "a call comes")
        again = calls()[0]
        wants(again.body == held.body, "the call comes again with the same bytes")
        wants(again.answer == held.answer, "it gets the kept answer")
        seen("bridge: started again; it sent the same bytes again, and got the same bytes as answer")
        return again.answered

    def renamed(self) -> None:
        """Changes the host_cpid of Bob's client."""
        self.bob.rename(NEW_NAME)
        self.give("last", 2)
        self.until_it_has(self.bob, "last")
        wants(
            any(is_request_of(self.bob, NEW_NAME)(message) for message in self.before_bridge.messages),
            "Bob tells the new host_cpid",
        )
        wants(
            not any(is_request_of(self.bob, NEW_NAME)(message) for message in self.behind_bridge.messages),
            "bsched hears the old one",
        )
        wants(self.result_of(self.bob, "last"), "the job is that of Bob's first host")
        seen(f"bob: tells another host_cpid, and is bsched's host {self.hosts[self.bob]} all the same")

    def scheduler_killed(self) -> None:
        """Kills bsched and starts it again."""
        self.until_it_has(self.ann, "last")
        self.scheduler.kill()
        seen("bsched: killed, while both have jobs")
        message = "gives no answer at the moment"
        for client in self.clients:
            self.until(lambda: message in client.log(), f"{client.name} is told to wait", client)
            wants(client.tasks(), f"{client.name} keeps its job")
            seen(f"{client.name}: is told to wait, and keeps its job")
        self.scheduler.start()
        seen("bsched: started again")
        self.until(self.is_valid("last"), "both results are valid", *self.clients)
        self.until(
            lambda: not any(client.tasks() for client in self.clients),
            "both forget what they reported",
            *self.clients,
        )
        seen("ann, bob: reported; both results of `last` are valid")

    def looked_at(self) -> None:
        """Checks the results and the credit at the end."""
        both = ["first", "held", "last", "lost", "next"]
        for workunit in both:
            self.until(self.is_valid(workunit), f"both results of {workunit} are valid", *self.clients)
        for client, wanted, credit in (
            (self.ann, sorted([*both, "given_up"]), "30.000"),
            (self.bob, both, "25.000"),
        ):
            statement = self.scheduler.statement(self.hosts[client])
            valid = sorted(workunit_of(name) for name, line in statement.items() if line[5] == "1")
            wants(valid == wanted, f"{client.name}: valid are {valid}")
            wants(self.credit(client) == credit, f"{client.name} has {self.credit(client)}")
            wants(not any(line[3] == "4" for line in statement.values()), f"{client.name}: nothing is out")
            seen(
                f"{client.name}: {len(valid)} results valid, {len(statement) - 1 - len(valid)} errors, "
                f"credit {credit}"
            )

    # ---- A volunteer joins

    def joined(self) -> None:
        """Carol makes an account with her client, and the bridge is killed meanwhile. Another machine of hers
        looks the account up.
        """
        for client in self.clients:
            client.command("--project", URL, "nomorework")  # from now on the jobs are for the others
        carol, second = self.client("carol", ""), self.client("second", "")
        for client in (carol, second):
            client.start()
        self.created_while_killed(carol)
        key = carol.create_account(EMAIL, PASSWORD, "Carol")
        wants(key is not None, f"carol has a key: {carol.output}")
        assert key is not None
        imports = [one for one in self.behind_bridge.messages if one.path.startswith("/import/accounts/")]
        wants(
            len({(one.path, one.body) for one in imports}) == 1, "the import has one name and the same bytes"
        )
        seen(f"carol: made an account with her client, in one import that was sent {len(imports)} times")
        wants(
            carol.create_account(EMAIL, PASSWORD, "Carol") == key, "the same creation again gets the same key"
        )
        wants(carol.create_account(EMAIL, WRONG, "Carol") is None, "another password gets no key")
        wants(
            "email already registered" in carol.output,
            f"it is told that the address is taken: {carol.output}",
        )
        wants(second.look_up(EMAIL, WRONG) is None, "a look-up with another password gets no key")
        wants(second.look_up(EMAIL, PASSWORD) == key, "a look-up finds the account")
        seen("carol: again gets the same key, with another password none; a look-up finds the account")
        for client in (carol, second):
            client.authenticator = key
            self.give(client.name, 1)
            client.attach()
            self.until(lambda: client.credit() > 0, f"{client.name} has credit", client)
            seen(f"{client.name}: attached, and has {client.credit():.3f} credits")
            client.command("--project", URL, "nomorework")  # so that the next job is for the other machine
        wants(
            key not in self.bridge.log() and EMAIL not in self.bridge.log(),
            "the bridge's log has no key and no address",
        )

    def created_while_killed(self, client: Client) -> None:
        """Kills the bridge after bsched has answered the import of an account, and starts it again."""
        answers: list[str | None] = []
        fault = self.behind_bridge.plan(
            Fault(lambda one: one.path.startswith("/import/accounts/"), is_held=True)
        )
        creation = threading.Thread(
            target=lambda: answers.append(client.create_account(EMAIL, PASSWORD, "Carol"))
        )
        creation.start()
        self.until(fault.met.is_set, "bsched answers the import of an account")
        self.bridge.kill()
        fault.let_go.set()
        creation.join(60)
        wants(answers == [None], f"the client gets no key: {client.output}")
        seen("carol: the bridge is killed when bsched has made her account, and she has no key")
        count = len(self.behind_bridge.messages)
        self.bridge.start()

        def sent_again() -> list[Message]:
            return [
                one
                for one in self.behind_bridge.messages[count:]
                if one.path == fault.hit.path and one.answer
            ]

        self.until(sent_again, "the import is sent again")
        again = sent_again()[0]
        wants(
            (again.body, again.answer) == (fault.hit.body, fault.hit.answer),
            "it gets the kept answer",
        )
        seen("bridge: started again; it sent the same import again, and got the same answer")

    def run(self) -> None:
        """Runs all steps."""
        for step in (
            self.begin,
            self.attach,
            self.quorum,
            self.lost,
            self.aborted,
            self.stopped,
            self.bridge_killed,
            self.renamed,
            self.scheduler_killed,
            self.looked_at,
            self.joined,
        ):
            step()
