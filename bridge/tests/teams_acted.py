"""Users who act in teams."""
from bridges import Bridge
from joining import create
from messages import request
from pages_seen import page_of, posted


def acted(bridge: Bridge, key: str, action: str, **fields: str) -> str:
    """Sends a form about a team, and returns the text of the page."""
    return page_of(posted(bridge, "account_team", key=key, action=action, **fields), has_key=True).text


def accounts(bridge: Bridge, count: int) -> list[tuple[str, int]]:
    """Makes accounts whose computers have called, and returns their keys and numbers."""
    made = []
    for number in range(count):
        key = create(bridge, f"user{number}@sums.example", client=f"198.51.100.{number}")
        bridge.call(request(key=key, cpid=f"c{number}"))
        made.append((key, bridge.members.of_key(key).id))
    return made
