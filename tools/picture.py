#!/usr/bin/env python3
"""Draws a topology and a map of it: see glb_tools/picture.py."""

import sys

# the standard library comes first: it has a module `numbers`, too
sys.path.append(sys.path.pop(0))

from glb_tools.options import start  # noqa: E402

start("picture")
