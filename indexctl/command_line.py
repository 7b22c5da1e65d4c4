"""The command line: each command with its options, and the parser that argparse makes of them."""
from __future__ import annotations

import argparse
import importlib
import re
import shutil
import textwrap
from typing import Any, Callable, Dict, List, NamedTuple, NoReturn, Optional, Sequence, Tuple

from indexctl.about import ABOUT, AGAIN, ENVIRONMENT, FILES, STATUSES, VERSION
from indexctl.commands import COMMANDS

Run = Callable[[argparse.Namespace], Optional[int]]
# single words that people know from elsewhere, each with the command that it is
ALIASES = {"info": "status", "whoami": "token check"}
# and those that are none, with what was meant, by people who used another tool
MEANT = {"list": "`indexctl names`, `indexctl files` or `indexctl releases`", "show": "`indexctl status`",
         "login": "`indexctl profile --help`, which says where your token stands", "publish": "`indexctl upload`",
         "download": "`python3 -m pip download`", "install": "`python3 -m pip install`"}
# options of twine, with what stands in their place
OF_TWINE = {"--skip-existing": "A file that is there with the same bytes is no error: leave it out.",
            "--repository": "`--profile NAME` names another index.", "-r": "`--profile NAME` names another index.",
            "--repository-url": "INDEX_URL names the index.", "-u": "There is no user name, but a token.",
            "-p": "The token stands in INDEX_TOKEN, or in the file that the profile names."}
# of a line of help, however wide the terminal is
LEAST_COLUMNS, MOST_COLUMNS = 20, 118


class Argument(NamedTuple):
    """A positional argument of a command, or an option of it, as argparse's `add_argument` takes it."""
    names: Tuple[str, ...]
    settings: Dict[str, Any]

    @property
    def is_option(self) -> bool:
        return self.names[0].startswith("-")


class Command(NamedTuple):
    """A command: the words that name it, one line of help, its arguments, and what it does."""
    path: str
    summary: str
    arguments: Tuple[Argument, ...]
    function: Run


LOADED: Dict[str, Command] = {}


def argument(*names: str, **settings: Any) -> Argument:
    return Argument(names, settings)


def command(path: str, *arguments: Argument) -> Callable[[Run], Run]:
    """Makes a function the command of these words. It gets what the command line says, and gives the status; none is
    0."""
    def keep(function: Run) -> Run:
        summary = next(summary for known, _, summary in COMMANDS if known == path)
        LOADED[path] = Command(path, summary, arguments, function)
        return function
    return keep


def load(words: Optional[Sequence[str]] = None) -> List[Command]:
    """The commands whose words are all among these, or all commands, with their modules loaded."""
    typed = {part for word in words or () for part in (word, *ALIASES.get(word, "").split())}
    found = [(path, module) for path, module, _ in COMMANDS if words is None or typed.issuperset(path.split())]
    for _, module in found:
        importlib.import_module(f"indexctl.{module}")
    return [LOADED[path] for path, _ in found]


def meant(noun: str, word: str) -> List[str]:
    """The commands that a word behind this noun may mean: one of the noun, or the list of what it names, or any."""
    # (it loads what asks an index, which a word that is right has no need of)
    from indexctl.near import MOST_SHOWN, is_near
    paths = [path for path, _, _ in COMMANDS]
    nouns = [] if noun else [it for it in dict.fromkeys(path.split()[0] for path in paths) if is_near(it, word)]
    own = [it for it in paths if noun and it.startswith(f"{noun} ") and is_near(it.split()[1], word)]
    lists = [it for it in paths if noun and it == f"{noun}s"]
    return (nouns or own or lists or [it for it in paths if it.split()[-1] == word])[:MOST_SHOWN]


class Parser(argparse.ArgumentParser):
    """A parser that says which command was perhaps meant by one that is none. What a command does not know is told by
    its own usage."""

    def error(self, message: str) -> NoReturn:
        found = re.search("(?:COMMAND|VERB): invalid choice: '([^']*)'", message)
        noun = " ".join(self.prog.split()[1:])
        near = " or ".join(f"`indexctl {it}`" for it in meant(noun, found[1])) if found else ""
        near = MEANT.get(found[1], near) if found and not noun else near
        super().error(f"{message} Did you mean {near}?" if near else message)

    def parse_args(self, args: Any = None, namespace: Any = None) -> Any:
        found, rest = self.parse_known_args(args, namespace)
        if found.plural and not any(it.startswith("-") for it in rest):
            # argparse takes such words only up to an option: `release yank frob --reason x 1.0`
            getattr(found, found.plural).extend(rest)
        elif rest:
            hints = [OF_TWINE[it] for it in (word.partition("=")[0] for word in rest) if it in OF_TWINE]
            found.parser.error(f"unrecognized arguments: {' '.join(rest)}" + (f". {' '.join(hints)}" if hints else ""))
        return found


def add_common(parser: argparse.ArgumentParser, profile: Any, again: Any) -> None:
    """The options that each command takes, which may also stand before it."""
    parser.add_argument("--profile", default=profile, metavar="NAME", help="the index of this profile")
    parser.add_argument("--again", type=int, default=again, metavar="N", help=AGAIN)


def more_text(function: Run) -> str:
    """What a command's docstring adds to its summary."""
    return textwrap.dedent(f"    {function.__doc__ or ''}").strip()


def sentence(summary: str) -> str:
    return f"{summary[0].upper()}{summary[1:]}."


def columns() -> int:
    """How wide help is: as argparse has it, but no wider than what one can read, and no narrower than a word."""
    return max(LEAST_COLUMNS, min(MOST_COLUMNS, shutil.get_terminal_size().columns - 2))


def wrapped(text: str) -> str:
    """Paragraphs as wide as the terminal. One that is indented, or lines of a file of settings, stand as they are."""
    def paragraph(part: str) -> str:
        if part.startswith(("    ", "[")):
            return part
        return textwrap.fill(part, columns(), break_long_words=False, break_on_hyphens=False)
    return "\n\n".join(map(paragraph, text.split("\n\n")))


def epilog() -> str:
    """What the help of the whole says of the environment, files and statuses."""
    parts = [("environment", ENVIRONMENT), ("files", FILES), ("status", STATUSES)]

    def entry(head: str, text: str) -> str:
        return textwrap.fill(text, min(100, columns()), initial_indent=f"  {head:<24}", subsequent_indent=" " * 26,
                             break_long_words=False, break_on_hyphens=False)
    return "\n\n".join(f"{title}:\n" + "\n".join(entry(*it) for it in pairs) for title, pairs in parts)


def parsers(loaded: Sequence[Command]) -> Tuple[Parser, Dict[str, Parser]]:
    """The parser of the whole command line, and that of each of these commands by its path. It lists the others, and
    takes none of their words."""
    plain = argparse.RawDescriptionHelpFormatter
    top = Parser(prog="indexctl", description=wrapped(ABOUT), epilog=epilog(), formatter_class=plain)
    top.add_argument("--version", action="version", version=f"indexctl {VERSION}")
    add_common(top, None, 6)
    top.set_defaults(yes=False, json=False, plural=None)
    common = Parser(add_help=False)
    add_common(common, argparse.SUPPRESS, argparse.SUPPRESS)
    nouns = {"": top.add_subparsers(metavar="COMMAND", dest="noun", required=True)}
    made: Dict[str, Parser] = {}
    known = {it.path: it for it in loaded}
    for path, _, summary in COMMANDS:
        noun, _, verb = path.rpartition(" ")
        if noun not in nouns:
            verbs = ", ".join(other.split()[1] for other, _, _ in COMMANDS if other.startswith(f"{noun} "))
            group = nouns[""].add_parser(noun, help=verbs, description=f"indexctl {noun}: {verbs}")
            nouns[noun] = group.add_subparsers(metavar="VERB", dest="verb", required=True)
        it = known.get(path)
        about = wrapped(f"{sentence(summary)}\n\n{more_text(it.function)}".strip()) if it else None
        parser = nouns[noun].add_parser(verb, help=summary, formatter_class=plain, description=about,
                                        parents=[common] if it else [], add_help=bool(it))
        if it:
            made[path] = parser
            add_arguments(parser, it)
    for alias, path in ALIASES.items():
        parents = [made[path]] if path in made else []
        parser = nouns[""].add_parser(alias, help=f"is `{path}`", parents=parents, add_help=False,
                                      formatter_class=plain, description=parents[0].description if parents else None)
        parser.set_defaults(parser=parser)
    return top, made


def add_arguments(parser: Parser, it: Command) -> None:
    for given in it.arguments:
        parser.add_argument(*given.names, **given.settings)
    places = [given for given in it.arguments if not given.is_option]
    plural = places[-1].names[0] if places and places[-1].settings.get("nargs") in ("+", "*") else None
    parser.set_defaults(function=it.function, parser=parser, plural=plural)


def parsed(words: Sequence[str]) -> argparse.Namespace:
    """What a command line of these words says. It ends the run with usage or help if that is asked for, or if it says
    nothing that can be done."""
    found: argparse.Namespace = parsers(load(words))[0].parse_args(words)
    return found
