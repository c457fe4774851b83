#!/usr/bin/env python3
"""Gives the commands of a fleet hostile words and files: each ends in time with a status that it lists, with one line of why and
without a traceback; and `| head` is no fault.

    bench/hostile_words.py [--glb PROGRAM]      wants etcd-server; status 1 where a command did otherwise
"""

import argparse
import os
import subprocess
import sys
import tempfile
import time
from concurrent.futures import ThreadPoolExecutor
from pathlib import Path

from hunt_world import TOP, Etcd

TOOLS = TOP / "tools"
# how long a command may take, in seconds
PATIENCE = 40
NUMBERS = ["", "x", "-1", "0", "nan", "inf", "-inf", "1e999", "9" * 400, "0x10", "1_000", "٣", " 1", "--"]
TEXTS = ["", " ", "\x1b[2J", "x" * 100000, "ü", b"\xff\xfe", "a/b", "..", "-", "--", "'; rm", "%s%n", "\n\n"]
ADDRESSES = ["", ",", "http://", "http://[::1", "http://127.0.0.1:99999", "http://127.0.0.1:0", "http://127.0.0.1:1/%", "ftp://a",
             "http://127.0.0.1:1", "http://a b", "http://\x7f", "https://127.0.0.1:1", "http://" + "a" * 300, b"http://\xff",
             "http://user:pw@127.0.0.1:1", "http://127.0.0.1:1?x#y", "http://ü.example"]  # fmt: skip


def files(folder):
    """Files that are none of what is asked for."""
    found = ["/nowhere/file", "/", str(folder), "/dev/null", "/proc/self/mem", ""]
    contents = {
        "empty": b"", "binary": bytes(range(256)) * 40, "nul": b"\0", "text": b"stop\n", "bom": b"\xef\xbb\xbfdemand g1 1\n",
        "long": b"demand g1 1 " + b"x" * 10**6, "latin": b"demand g\xe4 1\n", "crlf": b"demand g1 1\r\n", "half": b"demand g1",
        "unknown": b"demand nobody 1\n", "range": b"demand g1 99999999999999999999\n", "commit": b"demand g1 1\ncommit\n",
        "many": b"demand g1 1\n" * 5000, "toml": b"[zone\n", "other": b"a = 1\n", "tree": b"node = 7\n[zone]\n", "utf16": "[zone]".encode("utf-16"),
        "header": b"# the numbers up to entry 999 of the log, " + b"a" * 64 + b"\n" + (TOP / "examples/tree.toml").read_bytes(),
        "header0": b"# the numbers up to entry 1 of the log, " + b"0" * 64 + b"\n" + (TOP / "examples/tree.toml").read_bytes(),
        "headerold": b"# the numbers up to entry 1 of the log\n" + (TOP / "examples/tree.toml").read_bytes(),
        "deep": b"a = " + b"[" * 20000,
    }  # fmt: skip
    for name, octets in contents.items():
        path = folder / name
        path.write_bytes(octets)
        found.append(str(path))
    return found


def cases(folder, glb):
    """Words for each command; what follows the name, and what comes on standard input."""
    good, every = str(TOP / "examples/tree.toml"), files(folder)
    for name in ("fleet", "log", "append", "roll", "follow"):
        needed = ["--run", str(folder / "run")] if name == "follow" else []
        for words in ([], ["--nothing"], ["--etcd"], ["x", "y", "z"], ["--help"], ["--version"], ["--prefix", ""]):
            yield name, [*words], b""
        for address in ADDRESSES:
            yield name, [*needed, "--etcd", address, "--seconds", "0.1"] if name in ("append", "roll") else [*needed[:0], "--etcd", address], b"demand g1 1\n"
        for option in ("--cacert", "--cert", "--key", "--password"):
            for file in every[:9]:
                more = ["--etcd", "https://127.0.0.1:1"] if option != "--password" else ["--user", "x"]
                yield name, [*more, option, file], b"demand g1 1\n"
    for number in NUMBERS:
        yield "fleet", ["--wait", number], b""
        for option in ("--last", "--from", "--at"):
            yield "log", [option, number, "--to", str(folder / "at"), "--program", glb], b""
        for option in ("--seconds", "--wait"):
            yield "append", [option, number], b"demand nobody 1\n"
        yield "roll", ["--seconds", number, str(folder / "toml")], b""
        yield "roll", ["--minutes", number, "--canary", "x", str(folder / "toml")], b""
    for text in TEXTS:
        yield "fleet", ["--forget", text], b""
        yield "fleet", ["--prefix", text or "x", "--wait", "0"], b""
        for option in ("--author", "--name", "--text", "--kind", "--to", "--program"):
            yield "log", [option, text, *(["--at", "1"] if option in ("--to", "--program") else [])], b""
        for option in ("--id", "--author", "--why"):
            yield "append", [option, text, "--wait", "0"], b"demand nobody 1\n"
        yield "roll", ["--canary", text, "--program", glb, "--seconds", "0", good], b""
        yield "roll", ["--program", text, "--seconds", "0", good], b""
        yield "roll", ["--why", text, "--author", text, "--program", glb, "--seconds", "0", str(folder / "toml")], b""
        yield "follow", ["--name", text, "--run", str(folder / "run"), "--bases", str(folder / "bases"), "--program", glb, "--ended"], b""
        yield "follow", ["--run", text, "--bases", text, "--prepare", "--program", glb], b""
        yield "follow", ["--run", str(folder / "run2"), "--bases", str(folder / "bases"), "--prepare", "--program", text], b""
        yield "follow", ["--run", text + (b"/nowhere" if isinstance(text, bytes) else "/nowhere"), "--bases", str(folder / "bases")], b""
        yield "follow", ["--run", str(folder), "--unready", text or "false", "--ended"], b""
    for file in every:
        yield "append", [file], b""
        yield "append", ["--numbers", file], b""
        yield "roll", [file, "--program", glb, "--seconds", "0"], b""
        yield "roll", [file, "--program", "/nowhere", "--seconds", "0"], b""
        if Path(file).is_file() and not file.startswith("/proc"):
            yield "append", ["--wait", "0"], Path(file).read_bytes()


def listed(name):
    """The statuses that a command lists."""
    told = subprocess.run([sys.executable, str(TOOLS / f"glb-{name}"), "--help"], capture_output=True, text=True, check=True)
    ends = told.stdout.split("exit status:\n")[1]
    return {int(line.split()[0]) for line in ends.splitlines() if line.strip() and line.split()[0].isdigit()}


def one(case, address, statuses, folder):
    """What is wrong with what a command does; nothing where it does as it should."""
    name, words, stdin = case
    env = dict(os.environ, GLB_ETCD=address)
    began = time.monotonic()
    try:
        done = subprocess.run(
            [sys.executable, str(TOOLS / f"glb-{name}"), *words], input=stdin, capture_output=True, timeout=PATIENCE, env=env, cwd=folder, check=False
        )
    except subprocess.TimeoutExpired:
        return f"does not end in {PATIENCE} s"
    except (ValueError, OSError) as why:
        # words that no program can be given
        return None if "null byte" in str(why) or "too long" in str(why) else str(why)
    told = done.stderr.decode(errors="replace")
    if "Traceback" in told or done.returncode == 70:
        return f"{done.returncode}: {told[-600:]}"
    if done.returncode not in statuses[name]:
        return f"status {done.returncode}, which it does not list: {told[-300:]}"
    if done.returncode and not told.strip() and not done.stdout.strip():
        return f"status {done.returncode} without a word"
    if told.count("\n") > 3 and name != "roll":
        return f"many lines: {told[-300:]}"
    took = time.monotonic() - began
    return f"took {took:.0f} s" if took > 35 else None


def heads(address):
    """`| head` is no fault."""
    for words in ("glb-log --all", "glb-log --all --json", "glb-fleet", "glb-fleet --json", "glb-fleet --help", f"glb-append --numbers {TOP}/examples/tree.toml"):
        shell = f"set -o pipefail; {sys.executable} {TOOLS}/{words} | head -n 1; echo ${{PIPESTATUS[0]}} >&2"
        done = subprocess.run(["bash", "-c", shell], capture_output=True, text=True, env=dict(os.environ, GLB_ETCD=address), check=False)
        said, status = done.stderr.split("\n")[:-2], done.stderr.split("\n")[-2]
        if said or status not in ("0", "1", "141"):
            yield f"{words} | head: {status} {said}"


def main():
    words = argparse.ArgumentParser(description=__doc__, formatter_class=argparse.RawDescriptionHelpFormatter)
    words.add_argument("--glb", type=Path, default=TOP / "crates/glb_program/out/glb_program")
    options, wrong = words.parse_args(), 0
    with tempfile.TemporaryDirectory() as name:
        folder = Path(name)
        (folder / "here" / "below").mkdir(parents=True)
        etcd = Etcd(folder, 1)
        etcd.start()
        try:
            etcd.wait()
            address = etcd.addresses()[0]
            env = dict(os.environ, GLB_ETCD=address)
            roll = [sys.executable, str(TOOLS / "glb-roll"), "--program", str(options.glb), str(TOP / "examples/tree.toml")]
            subprocess.run(roll, env=env, check=True, stdout=subprocess.DEVNULL)
            for number in range(30):
                subprocess.run([sys.executable, str(TOOLS / "glb-append"), "--wait", "0"], input=f"demand g1 {number % 9 + 1}\n".encode(), env=env, check=True, stdout=subprocess.DEVNULL) if number < 5 else None
            statuses = {name: listed(name) for name in ("fleet", "log", "append", "roll", "follow")}
            every = list(cases(folder, str(options.glb)))
            with ThreadPoolExecutor(3) as pool:
                for case, found in zip(every, pool.map(lambda case: one(case, address, statuses, folder / "here" / "below"), every)):
                    if found:
                        wrong += 1
                        print(f"glb-{case[0]} {' '.join(repr(word)[:80] for word in case[1])} < {case[2][:40]!r}: {found}", flush=True)
            for found in heads(address):
                wrong += 1
                print(found)
        finally:
            etcd.stop()
    print(f"{len(every)} runs, {wrong} wrong")
    return 1 if wrong else 0


if __name__ == "__main__":
    sys.exit(main())
