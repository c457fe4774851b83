"""What a follower has others do: the hooks that let queries in and keep them out, and a server beside its own."""

import subprocess
import sys
from dataclasses import dataclass
from typing import Any

# how long a hook may take, in seconds
HOOK = 30


@dataclass
class Hooks:
    """What is run where the server is there, and where it is not: by these queries are let in and kept out."""

    ready: str | None = None
    unready: str | None = None

    def run(self, command: str | None) -> str | None:
        """Why a command failed; nothing where it did not."""
        if not command:
            return None
        try:
            status = subprocess.run(
                command, shell=True, stdin=subprocess.DEVNULL, timeout=HOOK
            ).returncode
            return f"`{command}` ended with {status}" if status else None
        except subprocess.TimeoutExpired:
            return f"`{command}` took longer than {HOOK} s"


class Canary:
    """Runs a server beside that of the follower, as long as somebody asks for it, in a process of its own."""

    def __init__(self, words: list[str] | None = None) -> None:
        self.words, self.base = words, ""
        self.process: subprocess.Popen[bytes] | None = None

    def ask(self, asked: dict[str, Any]) -> None:
        base = str(asked.get("base", ""))
        if self.words is None or base == self.base:
            return
        if self.process:
            self.process.terminate()
            self.process.wait()
            self.process = None
        self.base = base
        if base:
            say(f"runs base {base[:12]} beside, for {asked.get('author')}")
            self.process = subprocess.Popen([*self.words, "--base", base], stdin=subprocess.DEVNULL)


def say(words: str) -> None:
    print(words, file=sys.stderr, flush=True)
