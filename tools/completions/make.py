#!/usr/bin/env python3
"""Writes a completion for bash of each command that the packages install, of the command's own options.

    make.py            writes tools/completions/COMMAND for each
    make.py --check    writes nothing, and says which differ (status 1)

A command of Python is asked for its parser; one that needs what is not installed here is left out, and is said. The options of
`glb` are those that crates/command_line/src/declared.rt declares.
"""

import argparse
import importlib
import re
import sys
from collections.abc import Iterator
from pathlib import Path

HERE = Path(__file__).resolve().parent
TOOLS = HERE.parent
TOP = TOOLS.parent
if str(TOOLS) not in sys.path:
    sys.path.append(str(TOOLS))
DECLARED = TOP / "crates/command_line/src/declared.rt"
# what a value is named that is a file or a folder
FILES = re.compile(r"FILE|FOLDER|TOPOLOGY|CHOICES|STEM|PROGRAM|LOG|MAP|PIPE|WATCH|NEW|SVG")


class Found(Exception):
    """A command's parser, at the moment in which it would read its words."""


class Option:
    """A long option: whether it takes a value, and which."""

    def __init__(self, name: str, value: str | None = None, choices: tuple[str, ...] = ()) -> None:
        self.name, self.value, self.choices = name, value, choices

    def is_file(self) -> bool:
        return self.value is not None and FILES.search(self.value) is not None


def commands() -> dict[str, str]:
    """By command of Python, the module whose `main` it is."""
    found = {}
    for path in sorted(TOOLS.glob("glb-*")):
        module = re.search(r'^ *start\("(.*)"\)$', path.read_text(errors="replace"), re.M)
        if module:
            found[path.name] = module[1]
    return found


def parser_of(module: str) -> argparse.ArgumentParser:
    """The parser that a command's `main` makes. ModuleNotFoundError where it needs what is not installed."""

    def stop(self: argparse.ArgumentParser, *_: object, **__: object) -> None:
        raise Found(self)

    kept = argparse.ArgumentParser.parse_args, argparse.ArgumentParser.parse_known_args
    words = sys.argv
    argparse.ArgumentParser.parse_args = stop  # type: ignore[assignment, method-assign]
    argparse.ArgumentParser.parse_known_args = stop  # type: ignore[assignment, method-assign]
    sys.argv = [module]
    try:
        importlib.import_module(f"glb_tools.{module}").main()
    except Found as found:
        return found.args[0]  # type: ignore[no-any-return]
    finally:
        argparse.ArgumentParser.parse_args, argparse.ArgumentParser.parse_known_args = kept  # type: ignore[method-assign]
        sys.argv = words
    raise ValueError(f"{module} reads no words")


def options_of(parser: argparse.ArgumentParser) -> Iterator[Option]:
    for action in parser._actions:
        value = None if action.nargs == 0 else str(action.metavar or action.dest.upper())
        choices = tuple(str(choice) for choice in action.choices or ())
        for name in action.option_strings:
            if name.startswith("--"):
                yield Option(name, value, choices)


def glb_words() -> tuple[list[str], list[str]]:
    """The commands of `glb`, and the options of `serve`."""
    text = DECLARED.read_text()
    named = re.findall(r'subcommand\(command\(alloc, "(\w+)"', text)
    return [*named, "serve"], [f"--{name}" for name in re.findall(r'option\(alloc, "(\w+)"', text)]


def completion(command: str, options: list[Option], words: tuple[str, ...] = ()) -> str:
    """The text of a command's completion."""
    function = "_" + command.replace("-", "_")
    files = [option.name for option in options if option.is_file()]
    others = [
        option.name
        for option in options
        if option.value is not None and not option.is_file() and not option.choices
    ]
    lines = [
        f"# The completion of {command} for bash, made by tools/completions/make.py.",
        f"{function}() {{",
        "    local current=$2 previous=$3",
    ]
    cases = [
        f'    {option.name}) mapfile -t COMPREPLY < <(compgen -W "{" ".join(option.choices)}" -- "$current") && return ;;'
        for option in options
        if option.choices
    ]
    if files:
        cases.append(
            f'    {" | ".join(files)}) mapfile -t COMPREPLY < <(compgen -f -- "$current") && return ;;'
        )
    if others:
        cases.append(f'    {" | ".join(others)}) COMPREPLY=() && return ;;')
    if cases:
        lines += ["    case $previous in", *cases, "    esac"]
    listed = " ".join(option.name for option in options)
    lines += [
        "    case $current in",
        f'    -*) mapfile -t COMPREPLY < <(compgen -W "{listed}" -- "$current") ;;',
    ]
    if words:
        lines.append(
            f'    *) if [ "$COMP_CWORD" = 1 ]; then mapfile -t COMPREPLY < <(compgen -W "{" ".join(words)}" -- "$current"); else mapfile -t COMPREPLY < <(compgen -f -- "$current"); fi ;;'
        )
    else:
        lines.append('    *) mapfile -t COMPREPLY < <(compgen -f -- "$current") ;;')
    lines += ["    esac", "}", f"complete -o filenames -F {function} {command}", ""]
    return "\n".join(lines)


def texts() -> tuple[dict[str, str], dict[str, str]]:
    """By command, the text of its completion; and by command, the module that it needs and that is not installed."""
    made, missing = {}, {}
    names, given = glb_words()
    of_serve = [Option(name, "NAME.toml" if "feed" in name else "VALUE") for name in given]
    made["glb"] = completion("glb", of_serve, tuple(names))
    made["glb-ready"] = completion("glb-ready", [], ("in", "out"))
    for command, module in commands().items():
        try:
            made[command] = completion(command, list(options_of(parser_of(module))))
        except ModuleNotFoundError as why:
            missing[command] = str(why.name)
    return made, missing


def main() -> None:
    made, missing = texts()
    for command, module in missing.items():
        print(f"left out: {command}: the module {module} is not installed")
    differ = [
        command
        for command, text in made.items()
        if not (HERE / command).exists() or (HERE / command).read_text() != text
    ]
    left = [
        path.name
        for path in HERE.glob("glb*")
        if path.name not in made and path.name not in missing
    ]
    if "--check" in sys.argv:
        print(*(f"{command} differs" for command in [*differ, *left]), sep="\n")
        sys.exit(1 if differ or left else 0)
    for command in differ:
        (HERE / command).write_text(made[command])
    for command in left:
        (HERE / command).unlink()


if __name__ == "__main__":
    main()
