"""Networks of Linux namespaces, for tests: each node has a cable to one switch, and a cable can be pulled. Only root can make them."""
from __future__ import annotations

import os
import secrets
import subprocess

# The addresses of all nodes. Each network is apart from all others, so they are the same in each.
ALL = "10.77.0.0/24"


def ip(*words: str) -> None:
    """Runs a command of `ip`. Raises CalledProcessError if it fails."""
    subprocess.run(["ip", *words], check=True)


class Node:
    """A machine of a network, with its number there, from 1. A command that begins with `words` runs at this node."""

    def __init__(self, network: Network, number: int) -> None:
        self.network, self.name, self.port, self.address = network, f"{network.name}-{number}", f"port{number}", f"10.77.0.{number}"
        self.words = ["ip", "netns", "exec", self.name]

    def make(self) -> None:
        """Makes the namespace and its cable."""
        ip("netns", "add", self.name)
        ip("-n", self.network.name, "link", "add", self.port, "type", "veth", "peer", "name", "cable", "netns", self.name)
        ip("-n", self.network.name, "link", "set", self.port, "master", "switch", "up")
        ip("-n", self.name, "addr", "add", f"{self.address}/24", "dev", "cable")
        for device in ("lo", "cable"):
            ip("-n", self.name, "link", "set", device, "up")

    def cut(self) -> None:
        """Pulls the cable: packets are lost, and neither end of a connection notices."""
        ip("-n", self.network.name, "link", "set", self.port, "down")

    def mend(self) -> None:
        """Puts the cable back."""
        ip("-n", self.network.name, "link", "set", self.port, "up")


class Network:
    """A switch. It ends with its context, and its nodes end with it."""

    def __init__(self) -> None:
        self.name = f"spki-{os.getpid()}-{secrets.token_hex(3)}"
        self.nodes: list[Node] = []

    def __enter__(self) -> Network:
        ip("netns", "add", self.name)
        ip("-n", self.name, "link", "add", "switch", "type", "bridge")
        ip("-n", self.name, "link", "set", "switch", "up")
        return self

    def __exit__(self, *fault: object) -> None:
        for name in (*(each.name for each in self.nodes), self.name):
            ip("netns", "del", name)

    def node(self) -> Node:
        """Makes a node, and returns it."""
        node = Node(self, len(self.nodes) + 1)
        self.nodes.append(node)
        node.make()
        return node
