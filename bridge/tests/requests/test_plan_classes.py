"""Plan classes: which platforms bsched gets, and what the reply says of a version."""
import xml.etree.ElementTree as ElementTree
from pathlib import Path
from typing import Any

import pytest
from bridges import Bridge
from messages import FIRST, element_at, jobs, request

from bsched_bridge.requests.client_requests import ClientRequest, Coproc, read_request
from bsched_bridge.requests.plan_classes import PlanClass, by_resource
from bsched_files.toml_entries import OperatorFault

X86, I686 = "x86_64-pc-linux-gnu", "i686-pc-linux-gnu"
MT = PlanClass("mt", 2, 16, None, 1.0, None, None, "--nthreads {ncpus}")
GPU = PlanClass("fake", 1, 1, "fakegpu", 1.0, 0.1, 20.0, "")
ALL = frozenset(f"{platform}{end}" for platform in (X86, I686) for end in ("", ".mt", ".fake"))
# as client 7.20.5 sends them
COPROCS = """\
<coprocs>
<coproc>
   <type>fakegpu</type>
   <count>2</count>
   <peak_flops>1000000000000.000000</peak_flops>
   <req_secs>{seconds}</req_secs>
   <req_instances>2.000000</req_instances>
   <estimated_delay>0.000000</estimated_delay>
</coproc>
</coprocs>
"""


def asked(
    ncpus: int = 4,
    cpu: int = 100,
    gpu: float | int | None = None,
    alternatives: list[str] | tuple[str] = (I686,),
) -> ClientRequest:
    """Returns the request of a host."""
    extra = f"<cpu_req_secs>{cpu}</cpu_req_secs>" + "".join(
        f"<alt_platform><name>{name}</name></alt_platform>" for name in alternatives
    )
    if gpu is not None:
        extra += COPROCS.format(seconds=gpu)
    body = request(seconds=cpu, extra=extra).replace("<p_fpops>", f"<p_ncpus>{ncpus}</p_ncpus><p_fpops>")
    return read_request([body.encode()])


def sent(asking: ClientRequest, platforms: Any = ALL) -> tuple[list[str], int]:
    """Returns the platforms and the seconds that bsched gets."""
    asking = by_resource(asking, (GPU, MT), platforms)
    return [asking.platform_name, *asking.alt_platforms], asking.work_req_seconds


def test_what_a_request_says_of_coprocessors() -> None:
    asking = asked(gpu=103680.5)
    assert (asking.p_ncpus, asking.cpu_req_secs) == (4, 100)
    assert asking.coprocs == (Coproc("fakegpu", 2, 103681),)
    asking = read_request([request(seconds=7).encode()])  # of an old client
    assert (asking.p_ncpus, asking.cpu_req_secs, asking.coprocs) == (1, 7, ())
    cards = "".join(
        f"<{name}><count>1</count><req_secs>5</req_secs></{name}>"
        for name in ("coproc_cuda", "coproc_ati", "coproc_intel_gpu", "coproc_other")
    )
    asking = read_request(
        [request(extra=f"<coprocs>{cards}<coproc><count>1</count></coproc></coprocs>").encode()]
    )
    assert [one.type for one in asking.coprocs] == ["NVIDIA", "ATI", "intel_gpu"]


@pytest.mark.parametrize(
    "asking, platforms, seconds",
    [
        (asked(), [f"{X86}.mt", f"{I686}.mt", X86, I686], 100),
        (asked(ncpus=1), [X86, I686], 100),
        (asked(gpu=0), [f"{X86}.mt", f"{I686}.mt", X86, I686], 100),
        (asked(gpu=500), [f"{X86}.fake", f"{X86}.mt", f"{I686}.fake", f"{I686}.mt", X86, I686], 500),
        # a host that asks for its coprocessor alone gets work for it
        (asked(cpu=0, gpu=500), [f"{X86}.fake", f"{I686}.fake"], 500),
        # nothing is asked for: all that the host can run, so lost jobs of each kind can come again
        (asked(cpu=0, gpu=0), [f"{X86}.fake", f"{X86}.mt", f"{I686}.fake", f"{I686}.mt", X86, I686], 0),
    ],
)
def test_the_platforms_of_a_call(asking: ClientRequest, platforms: list[str], seconds: int) -> None:
    assert sent(asking) == (platforms, seconds)


def test_only_platforms_with_versions_are_sent() -> None:
    assert sent(asked(gpu=500), frozenset({X86, f"{X86}.mt"})) == ([f"{X86}.mt", X86, I686], 100)
    assert sent(asked(cpu=0, gpu=500), frozenset({X86})) == ([X86, I686], 0)


def test_at_most_eight_platforms_are_sent() -> None:
    others = [f"p{number}" for number in range(7)]
    platforms = frozenset(f"{name}.mt" for name in (X86, *others))
    assert sent(asked(alternatives=others), platforms)[0] == [f"{name}.mt" for name in (X86, *others)]


CLASSES = """
[[plan_class]]
name = "mt"
least_ncpus = 2
most_ncpus = 3
command_line = "--nthreads {ncpus}"

[[plan_class]]
name = "fake"
coproc = "fakegpu"
coproc_count = 0.5
avg_ncpus = 0.1
speed = 20
"""
VERSION = """
[[version]]
app = "sum"
platform = "x86_64-pc-linux-gnu.CLASS"
version_num = 2
files = [{ name = "sum_1", signature = "sum_1.signature", main_program = true }]
"""


@pytest.fixture
def class_bridge(bridge: Bridge) -> Bridge:
    """A bridge with versions of two plan classes."""
    path = bridge.folder / "catalogue.toml"
    more = CLASSES + VERSION.replace("CLASS", "mt") + VERSION.replace("CLASS", "fake")
    path.write_text(path.read_text() + more)
    bridge.restart()
    for name in ("mt", "fake"):
        line = f"sum,x86_64-pc-linux-gnu.{name},2"
        bridge.twin.service.imported("versions", name, f"app,platform,version_num\n{line}\n")
    return bridge


def test_a_job_of_several_processors(class_bridge: Bridge) -> None:
    body = request(extra="<cpu_req_secs>60</cpu_req_secs>").replace(
        "<p_fpops>", "<p_ncpus>4</p_ncpus><p_fpops>"
    )
    reply = ElementTree.fromstring(class_bridge.call(body))
    version = element_at(reply, "app_version")
    elements = [(one.tag, one.text) for one in version if one.tag not in ("file_ref", "app_name")]
    assert elements == [
        ("version_num", "2"),
        ("platform", X86),
        ("plan_class", "mt"),
        ("avg_ncpus", "3"),
        ("flops", "3000000000"),
        ("cmdline", "--nthreads 3"),
    ]
    result = element_at(reply, "result")
    assert [result.findtext(name) for name in ("platform", "plan_class", "version_num")] == [X86, "mt", "2"]
    # bsched's estimate is 60 seconds on one processor; the client divides by flops
    assert reply.findtext("workunit/rsc_fpops_est") == "60000000000"


def test_a_job_of_a_coprocessor_alone(class_bridge: Bridge) -> None:
    extra = "<cpu_req_secs>0</cpu_req_secs>" + COPROCS.format(seconds=60)
    reply = ElementTree.fromstring(class_bridge.call(request(seconds=0, extra=extra)))
    version = element_at(reply, "app_version")
    assert version.findtext("plan_class") == reply.findtext("result/plan_class") == "fake"
    assert (version.findtext("avg_ncpus"), version.findtext("flops")) == ("0.1", "20000000000")
    assert (version.findtext("coproc/type"), version.findtext("coproc/count")) == ("fakegpu", "0.5")
    assert version.find("cmdline") is None


def test_a_host_without_the_resources_gets_a_plain_version(class_bridge: Bridge) -> None:
    reply = class_bridge.call(request())
    assert jobs(reply) == ["u1_0"]
    assert b"plan_class" not in reply
    assert class_bridge.twin.calls()[-1]["platform_name"] == X86
    # a lost job comes again with the version that it had
    assert jobs(class_bridge.call(request(hostid=FIRST, seconds=0))) == ["u1_0"]


def test_the_platforms_of_the_project_are_plain(class_bridge: Bridge) -> None:
    config = ElementTree.fromstring(class_bridge.got("/p/get_project_config.php")[2])
    assert [one.text for one in config.findall("platforms/platform/platform_name")] == [X86]


@pytest.mark.parametrize(
    "old, new, fault",
    [
        ('name = "mt"', 'name = "other"', r"there is no \[\[plan_class\]\] mt"),
        ('name = "mt"', 'name = "m.t"', "name has a dot"),
        ('name = "mt"', 'name = "fake"', "this plan_class is already on line"),
        ("least_ncpus = 2", "least_ncpus = 4", "most_ncpus is less than least_ncpus"),
        ("least_ncpus = 2", "coproc_count = 2", "coproc_count needs coproc"),
        ("least_ncpus = 2", 'least_ncpus = "2"', "least_ncpus is not a whole number"),
        ("speed = 20\n", "", "speed is missing"),
        ("speed = 20", "speed = 0", "speed is not within"),
        ("speed = 20", "speed = nan", "speed is not within"),
        ("speed = 20", 'speed = "20"', "speed is not a number"),
        ("speed = 20", "quick = 20", "speed is missing"),
        ('"--nthreads {ncpus}"', '"a\\nb"', "command_line has more than 256 bytes, or a control character"),
    ],
)
def test_faulty_classes(project: Path, old: str, new: str, fault: str) -> None:
    from bsched_bridge.catalogue.contents import read_catalogue

    path = project / "catalogue.toml"
    path.write_text(path.read_text() + (CLASSES + VERSION.replace("CLASS", "mt")).replace(old, new, 1))
    with pytest.raises(OperatorFault, match=fault):
        read_catalogue(path)
