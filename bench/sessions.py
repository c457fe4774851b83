#!/usr/bin/env python3
"""Runs the commands of documents in an empty folder, as a reader types them, and compares what comes with what is shown.

    sessions.py [DOCUMENT..]        docs/GUIDE.md, docs/TOPOLOGY.md and README.md if none is named

A block of `sh` is run in one bash, which is kept; a block of `text` behind it is what it has to write, where `..` stands for
anything within a line. A block without one has to write nothing, and no command may fail. The folder has what the top of the
repository has, but for docs/GUIDE.md, which begins in an empty one. Left out are blocks that install packages, which have to be
installed, and those that call rt. All of it runs in a network and with process numbers of its own (unshare), so fixed ports
harm nobody, and nothing is left running. GLB names the program, as a whole path. The status is 0 where all is as shown, and 2
where something is not installed.
"""

import os
import re
import subprocess
import sys
import tempfile
import threading
from pathlib import Path

TOP = Path(__file__).resolve().parent.parent
GLB = os.environ.get("GLB", str(TOP / "crates/glb_program/out/glb_program"))
DOCUMENTS = ("docs/GUIDE.md", "docs/TOPOLOGY.md", "README.md")
# how long a block may take
SECONDS = 120
# a network, process numbers and a view of files of its own
APART = ["unshare", "--net", "--pid", "--mount", "--fork", "--kill-child", "--mount-proc", *([] if os.geteuid() == 0 else ["--map-root-user"])]


def blocks(text):
    """The pairs of a block of commands and what is shown of it, or None."""
    pairs = []
    for kind, inside in re.findall(r"^```(\w+)\n(.*?)^```$", text, re.M | re.S):
        if kind == "sh":
            pairs.append((inside, None))
        elif kind == "text" and pairs and pairs[-1][1] is None:
            pairs[-1] = (pairs[-1][0], inside)
        else:
            raise ValueError(f"a block of {kind} that follows no commands: {inside}")
    return pairs


def is_shown(written, shown):
    """Whether that was written, where `..` stands for anything within a line."""
    pattern = re.escape(shown or "").replace(r"\.\.", "[^\n]*")
    return re.fullmatch(pattern, written) is not None


def missing(text):
    """The packages that the document installs and this machine does not have."""
    wanted = {name for line in re.findall(r"^apt-get install (.*)$", text, re.M) for name in line.split() if "/" not in name}
    return sorted(name for name in wanted if subprocess.run(["dpkg-query", "-W", "-f", "${Status}", name], capture_output=True, text=True).stdout != "install ok installed")


def is_left_out(commands):
    return re.search(r"^apt-get install|\brt (try|run|ci)\b|\.ci/run", commands, re.M) is not None


class Shell:
    """One bash in a folder of its own."""

    def __init__(self, folder, is_empty):
        os.makedirs(f"{folder}/bin")
        os.makedirs(f"{folder}/work/crates/glb_program/out")
        os.symlink(GLB, f"{folder}/bin/glb")
        if is_empty:
            subprocess.run(["rm", "-r", f"{folder}/work/crates"], check=True)
        else:
            os.symlink(GLB, f"{folder}/work/crates/glb_program/out/glb_program")
            for name in ("bench", "docs", "examples", "tools", *(path.name for path in TOP.glob("*.md"))):
                os.symlink(TOP / name, f"{folder}/work/{name}")
        path = f"{folder}/bin:{TOP}/tools:/usr/bin:/bin:/usr/sbin:/sbin"
        environment = {"PATH": path, "HOME": folder, "LANG": "C.UTF-8"}
        self.process = subprocess.Popen([*APART, "bash"], cwd=f"{folder}/work", stdin=subprocess.PIPE, stdout=subprocess.PIPE, stderr=subprocess.STDOUT, env=environment)
        self.folder, self.count = Path(folder), 0
        self.run("ip link set lo up")

    def run(self, text):
        """What the commands write, with a line for each that fails."""
        self.count += 1
        file = self.folder / str(self.count)
        file.write_text(text)
        end = f"end-of-{self.count}"
        self.process.stdin.write(f"trap 'echo \"failed: $BASH_COMMAND\"' ERR; . {file} </dev/null; trap - ERR; echo {end}\n".encode())
        self.process.stdin.flush()
        late = threading.Timer(SECONDS, self.process.kill)
        late.start()
        written = b""
        while not written.endswith(f"{end}\n".encode()):
            octets = self.process.stdout.readline()
            if not octets:
                late.cancel()
                return written.decode() + f"the shell ended, or took more than {SECONDS} s\n"
            written += octets
        late.cancel()
        # what bash says of a process that was killed
        said = re.sub(r"^\S+: line \d+: +\d+ (Killed|Terminated) .*\n", "", written.decode(), flags=re.M)
        return said.removesuffix(f"{end}\n")

    def close(self):
        self.process.kill()
        self.process.wait()


def run(text, is_empty=False, told=print):
    """How many blocks are as shown, and how many are not."""
    passed = failed = 0
    with tempfile.TemporaryDirectory() as folder:
        shell = Shell(folder, is_empty)
        try:
            for commands, shown in blocks(text):
                if is_left_out(commands):
                    continue
                written = shell.run(commands)
                if is_shown(written, shown):
                    passed += 1
                else:
                    failed += 1
                    told(f"{commands}writes\n{written}in place of\n{shown or ''}")
        finally:
            shell.close()
    return passed, failed


def run_all(names=DOCUMENTS):
    """Runs these documents; gives how many blocks are not as shown, and whether a document was left out."""
    failed, left_out = 0, False
    for name in names:
        text = (TOP / name).read_text()
        lacking = missing(text)
        if lacking:
            left_out = True
            print(f"{name} is left out: not installed: {', '.join(lacking)}")
            continue
        passed, wrong = run(text, name.endswith("GUIDE.md"))
        failed += wrong if passed or wrong else 1
        print(f"{name}: {passed} blocks as shown, {wrong} not")
    return failed, left_out


def main():
    failed, left_out = run_all(sys.argv[1:] or DOCUMENTS)
    sys.exit(1 if failed else 2 if left_out else 0)


if __name__ == "__main__":
    main()
