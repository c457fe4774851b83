"""Questions to Prometheus, each in a thread of its own and with an end: a peer that is slow holds up nothing else."""

import threading
import time
from collections.abc import Container, Mapping

import requests

from glb_tools.watch_engine import Answer, answer_of
from glb_tools.watch_rules import Rule

# the largest answer that is read, in octets: a series takes some hundred
LARGEST = 1 << 26


class Question(threading.Thread):
    def __init__(self, url: str, timeout: float, rule: Rule, names: Container[str]) -> None:
        super().__init__(daemon=True)
        self.url, self.timeout, self.rule, self.names = url, timeout, rule, names
        self.end = time.monotonic() + timeout
        self.answer = Answer(fault=f"Prometheus gave no whole answer within {timeout:g} s")

    def run(self) -> None:
        try:
            self.answer = answer_of(self.rule, self.names, self.read())
        except Exception as why:  # noqa: BLE001: whatever it is, there is no answer
            self.answer = Answer(fault=f"Prometheus cannot be asked: {words_of(why)}")

    def read(self) -> bytes:
        message = {"query": self.rule.query, "timeout": f"{round(1000 * self.timeout)}ms"}
        with requests.Session() as session:
            # what the environment says of proxies and passwords is not meant for it
            session.trust_env = False
            with session.post(
                f"{self.url}/api/v1/query", data=message, timeout=self.timeout, stream=True
            ) as reply:
                found = bytearray()
                # in small pieces, so that one who sends an octet now and then is left soon
                for piece in reply.iter_content(512):
                    found += piece
                    if len(found) > LARGEST:
                        raise ValueError(f"the answer has more than {LARGEST} octets")
                    if time.monotonic() > self.end:
                        raise ValueError(f"no whole answer within {self.timeout:g} s")
                # a fault of the expression comes with its reason, as JSON
                if reply.status_code != 200 and not found.startswith(b"{"):
                    raise ValueError(f"it answered with status {reply.status_code}")
                return bytes(found)


def words_of(why: BaseException) -> str:
    """The innermost reason: requests wraps it several times. What somebody took out of the chain (`from None`) is none."""
    while inner := why.__cause__ or (None if why.__suppress_context__ else why.__context__):
        why = inner
    return " ".join(str(why).split())[:200]


class Prometheus:
    def __init__(self, url: str, timeout: float) -> None:
        self.url, self.timeout = url, timeout
        # questions that have not ended: none is asked twice at once
        self.open: dict[str, Question] = {}

    def ask(self, rules: Mapping[str, tuple[Rule, Container[str]]]) -> dict[str, Answer]:
        """The answers by the places of their rules, all of them within the timeout."""
        answers = {}
        asked = []
        for place, (rule, names) in rules.items():
            if place in self.open and self.open[place].is_alive():
                answers[place] = Answer(fault="Prometheus has not ended its last answer")
                continue
            self.open[place] = Question(self.url, self.timeout, rule, names)
            self.open[place].start()
            asked.append(self.open[place])
        for question in asked:
            question.join(max(0.0, question.end - time.monotonic()))
            answers[question.rule.place] = question.answer
        return answers
