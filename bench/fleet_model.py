#!/usr/bin/env python3
"""Looks for a run of the model of the fleet (tools/tests/fleet_world.py) that shows a fault.

    bench/fleet_model.py [SECONDS] [SEED]     300 seconds from seed 1,000,000 on

The status is 1 where a run shows a fault. Each run has one to three servers and up to 120 steps at
random, from its seed alone; the run that shows a fault is said step by step, and
`explore(SEED, SERVERS, STEPS)` of tools/tests/test_fleet_model.py makes it once more. Beside each
goes a run `restored(SEED)`, in which the log is restored while hardly anybody looks.
"""

import sys
import time
from pathlib import Path

tools = Path(__file__).resolve().parent.parent / "tools"
sys.path[:0] = [str(tools / "tests")]
sys.path.append(str(tools))

from test_fleet_model import explore, restored  # noqa: E402

try:
    seconds = float(sys.argv[1]) if len(sys.argv) > 1 else 300
    seed = begun = int(sys.argv[2]) if len(sys.argv) > 2 else 1000000
except ValueError:
    print(__doc__)
    sys.exit(0 if sys.argv[1] in ("-h", "--help") else 64)
end, there = time.monotonic() + seconds, 0
while time.monotonic() < end:
    there += explore(seed, 1 + seed % 3, 20 + seed % 101) + restored(seed)
    seed += 1
print(f"{seed - begun} runs, {there} times a server was told to be there, and none was elsewhere")
