#!/usr/bin/env python3
"""An old name of glb-numbers, until the next release of the package."""

import sys
import sysconfig
from pathlib import Path

if __name__ == "__main__":
    # the standard library comes first: it has a module of this name
    sys.path.append(sys.path.pop(0))

    from glb_tools.options import start

    start("numbers")
else:
    # whoever has this folder ahead in the path means the module of the standard library
    exec(Path(sysconfig.get_path("stdlib"), "numbers.py").read_text())
