#!/usr/bin/env python3
"""An old name of `glb-exporter --said - --text-file FILE.prom [--server SERVER]`, until the next release of the package.

metrics.py FILE.prom [SERVER]
"""

import sys

# the standard library comes first: it has a module `numbers`, too
sys.path.append(sys.path.pop(0))

from glb_tools.options import start  # noqa: E402

words = sys.argv[1:]
if 1 <= len(words) <= 2 and not words[0].startswith("-"):
    server = ["--server", words[1]] if len(words) == 2 else []
    sys.argv[1:] = ["--said", "-", "--text-file", words[0], *server]
start("exporter")
