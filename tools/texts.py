"""An old name of the readers of glb_tools, until the next release of the package."""

from glb_tools.map import Map, Name, Sums, map_lines, read_map  # noqa: F401
from glb_tools.options import Fault, run as told  # noqa: F401
from glb_tools.text import (  # noqa: F401
    LONGEST_LINE,
    MOST_CAPACITY,
    MOST_CHANGES,
    MOST_UNITS,
    Refused,
    Replay,
    check_question,
    lines_of,
    number_in,
    words_of as read_line,
)
from glb_tools.topology import NO_LIMIT, Node, Topology, Unit, read_topology  # noqa: F401
