"""The small world that the tests of glb-topology change: two regions, three pools, three groups and a class."""

import contextlib
import io
import sys
import tempfile
from pathlib import Path

from glb_tools.options import told

FILES = {
    "plan.toml": """[zone]
apex = "cdn.example"
mname = "ns1.ops.example"
rname = "admin.ops.example"
serial = 1
refresh = 3600
retry = 600
expire = 86400
minimum = 60
ttl = 20
ns = ["ns1.ops.example"]
services = ["www", "video"]

[lists]
length = 3
unplaced = 400
rest = "rest"
""",
    "nodes.csv": "node,parent,capacity\neu,,100\nus,,60\n",
    "pools.csv": (
        "pool,parent,capacity,addresses\n"
        "fra,eu,50,192.0.2.1 2001:db8::1\n"
        "ams,eu,60,192.0.2.2\n"
        "nyc,us,60,192.0.2.3\n"
    ),
    "prefixes.csv": "prefix,group\n198.51.100.0/24,de\n203.0.113.0/24,nl\n2001:db8:1::/48,nl\n192.0.2.0/24,rest\n",
    "demand.csv": "group,units,service\nde,60,\nnl,30,\nrest,5,\nde,20,video\n",
    "rtt.csv": (
        "group,pool,milliseconds\n"
        "de,fra,9\nde,ams,12\nde,nyc,90\n"
        "nl,ams,4\nnl,fra,10\nnl,nyc,85.5\n"
        "rest,nyc,50\nrest,fra,60\n"
    ),
}


class Folder:
    """The small world in a folder of its own, with some of its files changed."""

    def __init__(self, case, **changed):
        made = tempfile.TemporaryDirectory()
        case.addCleanup(made.cleanup)
        self.path = Path(made.name)
        for name, text in FILES.items():
            self.put(name, text)
        for name, text in changed.items():
            self.put(name.replace("_", "."), text)

    def put(self, name, text):
        if text is None:
            (self.path / name).unlink()
        else:
            (self.path / name).write_bytes(text if isinstance(text, bytes) else text.encode())

    def swap(self, name, old, new):
        text = (self.path / name).read_text()
        assert text.count(old) == 1, (name, old)
        self.put(name, text.replace(old, new))

    def run(self, main, *words):
        """A command's status, standard output, and what it says; the folder's name is left out."""
        out, said = io.StringIO(), io.StringIO()
        before, sys.argv = sys.argv, ["glb-topology", *words]
        try:
            with contextlib.redirect_stdout(out), contextlib.redirect_stderr(said):
                status = told(main)
        finally:
            sys.argv = before
        return status, out.getvalue(), said.getvalue().replace(f"{self.path}/", "")
