"""A bridge sends nothing to a scheduler that does not know its key: it may be another project's."""
import json
import logging

import pytest
from twin import Twin

from bsched_bridge.scheduler import messages as module
from bsched_bridge.scheduler.messages import NoAnswer, Scheduler, asking_call


@pytest.fixture(autouse=True)
def without_pauses(monkeypatch: pytest.MonkeyPatch) -> None:
    """Sends again at once."""
    monkeypatch.setattr(module, "PAUSE_SECONDS", 0.0)


def test_the_scheduler_of_another_project_gets_no_call(twin: Twin, caplog: pytest.LogCaptureFixture) -> None:
    caplog.set_level(logging.ERROR)
    bridge = Scheduler(twin.address, 60, "another-key")
    for _ in range(2):
        with pytest.raises(NoAnswer, match="refuses operator_key"):
            bridge.call(asking_call("ann-key", "c1", 1))
    assert twin.heard == [] and bridge.silent_since is not None
    assert "refuses operator_key: it is that of another project" in caplog.text


def test_its_own_scheduler_is_asked_once(twin: Twin, monkeypatch: pytest.MonkeyPatch) -> None:
    twin.statement = None
    bridge = Scheduler(twin.address, 60, "change-this-key")
    asked: list[str] = []
    knows = bridge.knows_key

    def counted(key: str) -> bool:
        asked.append(key)
        return knows(key)

    monkeypatch.setattr(bridge, "knows_key", counted)
    for _ in range(3):
        bridge.call(asking_call("ann-key", "c1", 1))
    assert asked == ["change-this-key"] and len(twin.heard) == 3
    twin.faults.append("unheard")  # another program may have the port after this
    bridge.call(asking_call("ann-key", "c1", 1))
    assert asked == ["change-this-key"] * 2


def test_a_program_that_is_no_scheduler(twin: Twin, monkeypatch: pytest.MonkeyPatch) -> None:
    bridge = Scheduler(twin.address, 60, "change-this-key")
    monkeypatch.setattr(twin, "statement", "<html>")
    with pytest.raises(NoAnswer, match="no answer of bsched"):
        bridge.call(asking_call("ann-key", "c1", 1))
    assert twin.heard == []


def test_a_statement_shows_that_the_key_is_known(twin: Twin) -> None:
    assert Scheduler(twin.address, 60).knows_key(
        "change-this-key"
    )  # this twin has a statement for each number
    twin.statement = None
    assert Scheduler(twin.address, 60).knows_key("change-this-key")
    assert not Scheduler(twin.address, 60).knows_key("another")


def test_a_question_about_a_host_changes_nothing() -> None:
    assert json.loads(asking_call("ann-key", "c1", 7)) == {
        "authenticator": "ann-key",
        "hostid": 7,
        "rpc_seqno": 0,  # no host ever had a call of this number
        "platform_name": "none",
        "host_info": {"host_cpid": "c1", "p_fpops": 1, "m_nbytes": 0, "d_free": 0},
    }


def test_answers_that_are_none(twin: Twin, monkeypatch: pytest.MonkeyPatch) -> None:
    bridge = Scheduler(twin.address, 60)
    twin.import_faults = ["garbage"]
    with pytest.raises(NoAnswer, match="no answer of bsched"):
        bridge.import_accounts("first", b"authenticator,name\n", "change-this-key")
    monkeypatch.setattr(bridge, "_exchange", lambda *_words: (400, b'{"error":"stale","last":5}'))
    with pytest.raises(NoAnswer, match="no answer of bsched"):
        bridge.knows_key("change-this-key")  # no answer to this question
    monkeypatch.undo()
    monkeypatch.setattr(module, "MOST_ANSWER", 5)
    with pytest.raises(NoAnswer, match="longer than 5 bytes"):
        bridge.message("GET", "/hosts/1", None, {"x-operator-key": "change-this-key"})
