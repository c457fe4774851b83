"""The syntax of gdnsd's configuration: hashes, arrays and strings (gdnsd.config(5))."""

from dataclasses import dataclass
from pathlib import Path

from glb_tools.options import Fault

SPECIAL = set('][}{;#,"=\\')
DEEPEST = 64


@dataclass
class Text:
    """A file, and how far it is read."""

    path: Path
    octets: str
    at: int = 0

    def fault(self, why: str) -> Fault:
        return Fault(f"{self.path}, line {self.octets.count(chr(10), 0, self.at) + 1}: {why}")

    def next(self) -> str:
        """The next character that is neither a blank nor in a remark, or none at the end."""
        while self.at < len(self.octets):
            c = self.octets[self.at]
            if c in "#;":
                end = self.octets.find("\n", self.at)
                self.at = len(self.octets) if end < 0 else end
            elif c.isspace():
                self.at += 1
            else:
                return c
        return ""

    def string(self) -> str:
        quoted = self.next() == '"'
        self.at += quoted
        found = []
        while self.at < len(self.octets):
            c = self.octets[self.at]
            if c == "\\":
                found.append(self.escaped())
            elif quoted and c == '"':
                self.at += 1
                return "".join(found)
            elif not quoted and (c in SPECIAL or c.isspace()):
                break
            else:
                found.append(c)
                self.at += 1
        if quoted:
            raise self.fault("a quote that is not closed")
        if not found:
            raise self.fault(
                f"a text is wanted, and `{self.octets[self.at:self.at + 10]}` is there"
            )
        return "".join(found)

    def escaped(self) -> str:
        digits = self.octets[self.at + 1 : self.at + 4]
        if digits[:1].isdigit():
            if len(digits) < 3 or not digits.isdigit() or int(digits) > 255:
                raise self.fault("an escape that is no number from 000 to 255")
            self.at += 4
            return chr(int(digits))
        if not digits:
            raise self.fault("an escape at the end of the file")
        self.at += 2
        return digits[0]

    def skip_comma(self) -> None:
        if self.next() == ",":
            self.at += 1


def read_vscf(path: Path) -> dict[str, object]:
    """The hash that a file is."""
    return read_included(path, 0)


def hash_of(text: Text, end: str, depth: int) -> dict[str, object]:
    """A hash up to its end, which is the file's where there is none."""
    if depth > DEEPEST:
        raise text.fault("hashes or files that are nested too deep")
    found: dict[str, object] = {}
    while (c := text.next()) != end:
        if not c:
            raise text.fault("the file ends inside of a hash")
        if text.octets.startswith("$include{", text.at):
            for path in included(text):
                merge(text, found, read_included(path, depth))
            text.skip_comma()
            continue
        key = text.string()
        if text.next() != "=":
            raise text.fault(f"`=>` is wanted behind `{key}`")
        text.at += 2 if text.octets[text.at : text.at + 2] == "=>" else 1
        merge(text, found, {key: value_of(text, depth)})
        text.skip_comma()
    text.at += len(end)
    return found


def merge(text: Text, found: dict[str, object], more: dict[str, object]) -> None:
    for key, value in more.items():
        if key in found:
            raise text.fault(f"the key `{key}` stands twice")
        found[key] = value


def value_of(text: Text, depth: int) -> object:
    c = text.next()
    if c == "{":
        text.at += 1
        return hash_of(text, "}", depth + 1)
    if c == "[":
        text.at += 1
        items: list[object] = []
        while text.next() != "]":
            if not text.next():
                raise text.fault("the file ends inside of an array")
            if depth > DEEPEST:
                raise text.fault("arrays that are nested too deep")
            items.append(value_of(text, depth + 1))
            text.skip_comma()
        text.at += 1
        return items
    if text.octets.startswith("$include{", text.at):
        paths = included(text)
        if len(paths) != 1:
            raise text.fault("one file alone is included as a value")
        return read_included(paths[0], depth)
    return text.string()


def included(text: Text) -> list[Path]:
    text.at += len("$include{")
    text.next()
    name = text.string()
    if text.next() != "}":
        raise text.fault("`}` is wanted behind the name of an included file")
    text.at += 1
    base = text.path.parent
    if (base / name).is_dir():
        return sorted(path for path in (base / name).iterdir() if path.is_file())
    folder = (base / name).parent
    if any(c in name for c in "*?["):
        paths = sorted(folder.glob(Path(name).name))
        if not paths:
            raise text.fault(f"no file is called {name}")
        return paths
    return [base / name]


def read_included(path: Path, depth: int) -> dict[str, object]:
    text = Text(path, path.read_bytes().decode("utf-8", "surrogateescape"))
    return hash_of(text, "", depth + 1)
