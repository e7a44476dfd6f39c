"""The networks between the machines. A cable can be pulled out of its switch, and be plugged in again."""
from debian_trial.debian import run

# a switch for each network: of the clients, the link between the two, and that of the trial, which stays
CLIENTS, LINK, TRIAL = "clients", "link", "trial"
NETWORKS = (CLIENTS, LINK, TRIAL)
HERE = 254  # the trial's own number in the networks of the clients and of the trial
PROJECT = "10.77.0.100"  # the project's address, in docs/TWO_MACHINES.md


def cable(machine: str, network: str) -> str:
    """Returns the name of the cable between a machine and a switch."""
    return f"{machine}-{network}"


def ip(*words: str) -> None:
    """Runs a command of iproute2, in the network that belongs to this process alone."""
    run(["ip", *words])


def make_networks(machines: dict[str, tuple[str, ...]]) -> None:
    """Makes the switches, and a cable from each machine to each of its networks."""
    ip("link", "set", "dev", "lo", "up")
    for number, network in enumerate(NETWORKS):
        ip("link", "add", "name", network, "type", "bridge")
        ip("link", "set", "dev", network, "up")
        if network != LINK:
            ip("address", "add", f"10.77.{number}.{HERE}/24", "dev", network)
    for machine, networks in machines.items():
        for network in networks:
            ip("tuntap", "add", "dev", cable(machine, network), "mode", "tap")
            ip("link", "set", "dev", cable(machine, network), "up")
            plug_in(machine, network)


def pull_out(machine: str, network: str) -> None:
    """Pulls a machine's cable out of the switch. What is sent into it is lost without a word."""
    ip("link", "set", "dev", cable(machine, network), "nomaster")


def plug_in(machine: str, network: str) -> None:
    """Plugs a machine's cable into the switch."""
    ip("link", "set", "dev", cable(machine, network), "master", network)
