"""Where the nodes are, by name."""

import os
import tomllib
from dataclasses import dataclass
from typing import Mapping, Sequence

from .link import Address

# the names of nodes, in order, where no others are given
NAMES = ("Alice", "Bob", "Charlie", "David", "Eve", "Frank", "Grace", "Heidi")


@dataclass(frozen=True)
class Network:
    """The address and port of each node, by name."""

    places: Mapping[str, Address]

    @classmethod
    def from_settings(cls, path: str | os.PathLike[str], names: Sequence[str] = NAMES) -> "Network":
        """The nodes of qron's settings file, which get the names in order. Raises OSError, and ValueError where the file isn't settings."""
        with open(path, "rb") as file:
            settings = tomllib.load(file)
        try:
            places = [(str(node["address"]), int(node["port"])) for node in settings["node"]]
        except (KeyError, TypeError) as error:
            raise ValueError(f"{path}: these are no settings of qron: {error!r}") from error
        return cls(dict(zip(names, places)))

    @classmethod
    def default(cls) -> "Network":
        """The nodes of the settings file that the environment names in CQC_SETTINGS, with the names of CQC_NAMES, which commas divide.
        Without them the names are NAMES, and node k is at 127.0.0.1 port 8821 + k, as in qron without settings."""
        names = os.environ["CQC_NAMES"].split(",") if "CQC_NAMES" in os.environ else NAMES
        if "CQC_SETTINGS" in os.environ:
            return cls.from_settings(os.environ["CQC_SETTINGS"], names)
        return cls({name: ("127.0.0.1", 8821 + node) for node, name in enumerate(names)})

    def place(self, name: str) -> Address:
        """The address and port of the node with that name. Raises ValueError."""
        if name not in self.places:
            raise ValueError(f"no node has the name {name}; the names are {', '.join(self.places)}")
        return self.places[name]

    def classical_place(self, name: str) -> Address:
        """Where programs at that node hear classical messages: at its port + 1000."""
        address, port = self.place(name)
        return address, port + 1000
