#!/usr/bin/env python3
"""An old name of glb-moves, until the next release of the package."""

import sys

# the standard library comes first: it has a module `numbers`, too
sys.path.append(sys.path.pop(0))

from glb_tools.options import start  # noqa: E402

start("moves")
