"""Tests what packaging/try_pair does without machines: how it reads pages and what programs print, its table
of events, the notes of its clients and their comparison, and what it takes for two schedulers.
"""
import re
import subprocess
from pathlib import Path

import pytest
from debian_trial.debian import TrialFault
from hypothesis import given
from hypothesis import strategies as st
from pair_made import HOME, PAIR
from pair_trial import page
from pair_trial.comparing import UPLOADED
from pair_trial.events import EVENTS, NAMES
from pair_trial.image import MORE
from pair_trial.machine import KINDS, quoted
from pair_trial.networks import NETWORKS, cable
from pair_trial.notes import Account, Kept, Notes, Report, Upload, first_after, longest_pause, missing
from pair_trial.observing import STALE_SECONDS, Look, both_at_once, read_look
from pair_trial.page import (
    PageFault,
    Part,
    block_with,
    paragraph_of,
    printed_commands,
    row_of,
    section_of,
    steps_of,
)
from pair_trial.volunteers import Computer, Unanswered, element, jobs_of

from bsched_pair.steps import PACKAGES, steps
from bsched_pair.units import possible_units

PAIR_PAGE = page.PAIR_PAGE.read_text(encoding="utf-8")
USAGE = (Path(page.__file__).resolve().parent.parent / "try_pair").read_text(encoding="utf-8")
PRINTED = steps(PAIR, possible_units("sums"), HOME, Path("/var/lib/bsched-pair/sums"))
PRIMARY = "0: cs:Connected ro:Primary/Secondary ds:UpToDate/UpToDate C r-----"
SECONDARY = PRIMARY.replace("Primary/Secondary", "Secondary/Primary")
ACCOUNT = Account("v1@sums.example", "ab" * 16, "key-1")


# ---- Pages


def test_the_command_of_the_page_names_the_machines_of_the_trial() -> None:
    command = block_with(PAIR_PAGE, "Set up")
    assert command.startswith("bsched-project pair sums ")
    for name, kind in KINDS.items():
        assert f"{name}=10.77.0.{kind.number}" in command
    assert "--disk /dev/vg0/sums" in command


def test_the_page_of_an_upgrade_has_its_commands() -> None:
    commands = block_with(page.UPGRADE_PAGE.read_text(encoding="utf-8"), "Upgrading", "systemctl stop")
    assert len(re.findall(r"^apt-get install /root/bsched_", commands, re.MULTILINE)) == 1
    assert "bsched upgrade" in commands and "systemctl start bsched@sums" in commands


def test_the_page_has_the_commands_of_the_operator() -> None:
    assert row_of(PAIR_PAGE, "Every day", "move the project") == [
        "crm node standby alpha",
        "beta",
        "crm node online alpha",
    ]
    aside = row_of(PAIR_PAGE, "Every day", "edit by hand, with the cluster looking away")
    assert aside == ["crm configure property maintenance-mode=true", "false"]
    assert any("drbdadm create-md" in code for code in paragraph_of(PAIR_PAGE, "A failed disk"))


@pytest.mark.parametrize(
    "read",
    [
        lambda: section_of(PAIR_PAGE, "No such section"),
        lambda: block_with(PAIR_PAGE, "Every day"),
        lambda: row_of(PAIR_PAGE, "Every day", "no such row"),
        lambda: paragraph_of(PAIR_PAGE, "No such paragraph"),
    ],
)
def test_what_a_page_lacks_is_a_fault(read: object) -> None:
    assert callable(read)
    with pytest.raises(PageFault):
        read()


def test_the_printed_steps_say_where_they_run() -> None:
    found = steps_of(PRINTED, ("alpha", "beta"), "gamma")
    assert [step.number for step in found] == list(range(1, 9))
    machines = [[part.machines for part in step.parts] for step in found]
    pair = ("alpha", "beta")
    assert machines == [
        [pair, ("gamma",)],
        [("alpha",)],
        [pair],
        [pair],
        [("alpha",)],
        [pair],
        [("alpha",)],
        [("alpha",)],
    ]
    assert found[0].parts[1] == Part(("gamma",), "apt install corosync-qnetd\n")
    assert "".join(part.commands for step in found for part in step.parts) == printed_commands(PRINTED)


def test_each_printed_step_is_a_script() -> None:
    for step in steps_of(PRINTED, ("alpha", "beta"), "gamma"):
        for part in step.parts:
            done = subprocess.run(["bash", "-n"], input=part.commands, text=True, capture_output=True)
            assert (done.returncode, done.stderr) == (0, ""), step.number


@given(st.text(st.characters(blacklist_characters="\0", blacklist_categories=("Cs",)), max_size=40))
def test_a_quoted_text_is_one_word(text: str) -> None:
    done = subprocess.run(["sh", "-c", f"printf %s {quoted(text)}"], capture_output=True)
    assert done.stdout == text.encode()


# ---- Events and machines


def test_the_usage_lists_each_event() -> None:
    assert len(NAMES) == len(EVENTS)
    lines = USAGE.splitlines()
    for event in EVENTS:
        assert any(line.split("  ")[0] == event.name for line in lines), event.name
        assert event.happen.__doc__


def test_a_cable_has_a_name_that_the_kernel_takes() -> None:
    for machine, kind in KINDS.items():
        assert set(kind.networks) <= set(NETWORKS)
        assert all(len(cable(machine, network)) < 16 for network in kind.networks)


def test_each_package_is_named_once() -> None:
    assert len({*MORE, *PACKAGES}) == len(MORE) + len(PACKAGES)


# ---- Notes


@pytest.fixture
def notes(tmp_path: Path) -> Notes:
    """Returns notes of an account, an upload that is not reported yet, and one that is."""
    made = Notes(tmp_path / "notes")
    made.account(ACCOUNT)
    made.upload(Upload("part_1_0_0", "aa"))
    made.upload(Upload("part_2_0_0", "bb"))
    made.report(Report("part_2_0", "bb"))
    return made


def whole() -> Kept:
    """Returns what a project has that lost nothing."""
    return Kept({"key-1"}, {"part_1_0_0": "aa"}, {"aa", "bb"}, {"part_2_0": "out sha256:bb 3"})


def test_nothing_is_missing(notes: Notes, tmp_path: Path) -> None:
    assert list(missing(notes, whole())) == []
    assert notes.counts() == "1 accounts, 2 uploads, 1 reports"
    lines = (tmp_path / "notes").read_text().splitlines()
    assert [line.partition(", ")[2].split('"')[1] for line in lines] == [
        "account",
        "upload",
        "upload",
        "report",
    ]


def test_each_kind_of_loss_is_found(notes: Notes) -> None:
    assert list(missing(notes, Kept())) == [
        "the account v1@sums.example is missing",
        "the file part_1_0_0 is missing",
        "the file part_2_0_0 is missing",
        "the report of part_2_0 is missing",
    ]
    other = whole()
    other.outputs["part_2_0"] = "out sha256:cc 3"
    assert list(missing(notes, other)) == ["the report of part_2_0 has another output"]


@given(st.lists(st.floats(0, 1000)), st.floats(0, 500), st.floats(500, 1000))
def test_a_pause_is_between_two_answers(answers: list[float], began: float, ended: float) -> None:
    pause = longest_pause(answers, began, ended)
    inside = [answer for answer in answers if began <= answer <= ended]
    assert pause <= ended - began
    assert pause * (len(inside) + 1) >= (ended - began) * 0.999
    if not inside:
        assert pause == ended - began


def test_the_first_answer_after_a_moment() -> None:
    assert first_after([1.0, 9.0, 5.0], 2.0) == 3.0
    assert first_after([1.0], 2.0) is None


def test_the_sum_of_an_upload() -> None:
    found = UPLOADED.fullmatch(f"{'ab' * 32}  pending/part_1_0_0.{'ab' * 32}")
    assert found is not None and found[3] == f"part_1_0_0.{'ab' * 32}"
    assert UPLOADED.fullmatch(f"{'ab' * 32}  secret") is None


# ---- What the machines say


def look(at: float, machine: str, serves: bool, disk: str = SECONDARY) -> Look:
    """Returns what a machine said."""
    return Look(at, machine, serves, disk)


def test_two_machines_that_serve_at_once_are_found() -> None:
    one_after_the_other = [look(0, "alpha", True), look(STALE_SECONDS + 1, "beta", True)]
    assert both_at_once(one_after_the_other) is None
    assert both_at_once([look(0, "alpha", True), look(1, "alpha", False), look(2, "beta", True)]) is None
    assert both_at_once([look(0, "alpha", True), look(2, "beta", True)]) == "alpha and beta both serve"
    both = [look(0, "alpha", False, PRIMARY), look(2, "beta", False, PRIMARY)]
    assert both_at_once(both) == "alpha and beta both can write"


@given(st.text(max_size=60))
def test_what_a_stranger_says_is_no_look(text: str) -> None:
    found = read_look(text, 0.0)
    assert found is None or found.machine in KINDS


def test_a_look_is_read() -> None:
    assert read_look(f"alpha serves {PRIMARY}\n", 5.0) == Look(5.0, "alpha", True, PRIMARY)
    assert read_look("gamma - -", 5.0) == Look(5.0, "gamma", False, "-")


# ---- Clients


REPLY = """\
<scheduler_reply>
<hostid>100001</hostid>
<file_info>
<name>squares_1</name>
<url>https://sums.example/project/download/squares_1</url>
</file_info>
<file_info>
<name>first_part_1_0_0</name>
<generated_locally>1</generated_locally>
<max_nbytes>1000000</max_nbytes>
<url>https://sums.example/project/file_upload_handler/first_part_1_0_0/token</url>
<xml_signature>
signature
</xml_signature>
</file_info>
<result>
<name>first_part_1_0</name>
<wu_name>first_part_1</wu_name>
<file_ref>
<file_name>first_part_1_0_0</file_name>
</file_ref>
</result>
</scheduler_reply>
"""


def test_a_reply_has_jobs_with_their_files() -> None:
    (job,) = jobs_of(REPLY)
    (file,) = job.files
    assert (job.name, file.name, file.token, file.most) == (
        "first_part_1_0",
        "first_part_1_0_0",
        "signature",
        1_000_000,
    )
    assert file.data != jobs_of(REPLY)[0].files[0].data


def test_a_computer_reports_what_is_uploaded() -> None:
    computer = Computer(ACCOUNT, hostid="100001")
    for job in jobs_of(REPLY):
        computer.jobs[job.name] = job
    assert "<exit_status>" not in computer.call(30).decode()
    job.is_uploaded = True
    call = computer.call(30).decode()
    assert f"<md5_cksum>{job.files[0].md5}</md5_cksum>" in call
    assert "<rpc_seqno>2</rpc_seqno>" in call and "<hostid>100001</hostid>" in call


def test_an_answer_without_an_element_is_none() -> None:
    with pytest.raises(Unanswered):
        element("<error><error_num>-161</error_num></error>", "authenticator")


def test_a_fault_of_the_trial_is_one() -> None:
    assert issubclass(TrialFault, Exception)
