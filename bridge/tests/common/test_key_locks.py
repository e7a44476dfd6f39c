"""One request of a client at a time."""
import threading

from bridges import Bridge
from messages import jobs, request, value
from twin import Twin

from bsched_bridge.people.hosts import Key


def test_two_requests_of_a_client_at_once_share_no_number(bridge: Bridge, twin: Twin) -> None:
    twin.faults = ["slow"] * 4
    threads = [threading.Thread(target=bridge.call, args=(request(listed=None),)) for _ in range(4)]
    for thread in threads:
        thread.start()
    for thread in threads:
        thread.join()
    assert [call["rpc_seqno"] for call in twin.calls()] == [1, 2, 3, 4]


def test_two_clients_at_once_do_not_wait_for_one_another(bridge: Bridge, twin: Twin) -> None:
    locks = bridge.application.exchange._locks
    with locks.held(Key("ann-key", "c1")):
        assert jobs(bridge.call(request(key="bob-key", cpid="c2"))) == ["u1_0"]
        locks.wait_seconds = 0.01
        reply = bridge.call(request())
        assert value(reply, "message") == "Another scheduler instance is running for this host."
    assert locks._locks == {}
