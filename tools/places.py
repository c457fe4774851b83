"""Old names of what glb_tools/toml.py and glb_tools/topology.py have, until the next release of the package."""

from glb_tools import topology as _topology
from glb_tools.toml import Document
from glb_tools.toml import Walk as Places  # noqa: F401


def place_of(topology, word, number):
    return _topology.place_of(topology, (word, number))


def written(text, topology, numbers):
    places = {place_of(topology, *change): number for change, number in numbers.items()}
    return Document(text.encode()).written(places)
