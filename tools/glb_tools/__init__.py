"""The tools around `glb`: no part of the proved program. Each command is a module with a `main`.

Whatever needs more than Python's own library imports it in the module of its command alone, so that a DNS server needs
none of it: `glb-append`, `glb-follow`, `glb-fleet`, `glb-log` and `glb-roll` run with Python 3.11 alone.
"""

VERSION = "1.1"
