"""Completion in bash, zsh and fish: the script has the commands and their options, and asks for what the index has as
you type."""
from __future__ import annotations

import argparse
import re
import threading
from contextlib import suppress
from dataclasses import dataclass
from typing import Dict, List, Optional, Sequence, Set, Tuple

from indexctl.command_line import ALIASES, Command, argument, command, load
from indexctl.contents import find_contents, releases_of
from indexctl.ends import Stop
from indexctl.settings import find_setting
from indexctl.standings import listed_names
from indexctl.terminal import put
from indexctl.transport import Index
from package_index.names import normal

BASH = """# completion for indexctl, made by `indexctl completion @SHELL@`
@BEGIN@_indexctl() {
    # (zsh knows `path` and `words` as its own)
    local word=${COMP_WORDS[COMP_CWORD]} called="" IFS=$' \\t\\n' at
    for ((at = 1; at < COMP_CWORD; at++)); do
        case ${COMP_WORDS[at]} in -*) continue ;; esac
        case "$called ${COMP_WORDS[at]}" in
@PATHS@            *) break ;;
        esac
        called="$called ${COMP_WORDS[at]}"
    done
    local offers="" asks=""
    case "$called" in
@AFTER@    esac
    COMPREPLY=()
    if [[ -n $asks && $word != -* ]]; then
        COMPREPLY=($("${COMP_WORDS[0]/#\\~/$HOME}" completion @SHELL@ -- "${COMP_WORDS[@]:1:$COMP_CWORD}" 2> /dev/null))
    fi
    if [[ ${#COMPREPLY[@]} = 0 ]]; then
        COMPREPLY=($(compgen -W "$offers" -- "$word"))
    fi
}
complete -o default -F _indexctl indexctl
"""
ZSH = """(( $+functions[compdef] )) || { autoload -U compinit && compinit; }
autoload -U bashcompinit && bashcompinit
"""
FISH = """# completion for indexctl, made by `indexctl completion fish`
function __indexctl
    set -l before (commandline -opc)
    set -l tool (string replace -r "^~" "$HOME" $before[1])
    set -l word (commandline -ct)
    set -l called ""
    for it in $before[2..-1]
        string match -q -- "-*" $it; and continue
        switch "$called $it"
@PATHS@            case "*"
                break
        end
        set called "$called $it"
    end
    set -l offers
    set -l asks
    switch "$called"
@AFTER@    end
    set -l found
    if set -q asks[1]; and not string match -q -- "-*" $word
        set found ($tool completion fish -- $before[2..-1] $word 2> /dev/null)
    end
    set -q found[1]; or set found (string match -- "$word*" $offers)
    if set -q found[1]
        printf "%s\\n" $found
    else
        __fish_complete_path $word
    end
end
complete -c indexctl -k -f -a "(__indexctl)"
"""
SHELLS = ("bash", "zsh", "fish")
# what each command takes beside its own arguments
COMMON_OPTIONS = ("--help", "--profile", "--again")
WITH_VALUE = {"--profile", "--again"}
# a person waits for no answer longer than so many seconds, and reads no longer list of files
PATIENCE, MOST_PROJECTS = 1.0, 8
# a shell takes such a text as it is: what else a server gives may be a command
PLAIN = re.compile("[A-Za-z0-9._+-]+")


@dataclass(frozen=True)
class Line:
    """What stands on a command line: the words that the command got so far, the one that is typed and what it names,
    the profile, and the words that may stand there too."""
    given: List[str]
    typed: str
    kind: str
    profile: Optional[str]
    choices: Sequence[str] = ()


def completed(it: Command) -> List[str]:
    """What may follow the name of a command: the choices of its arguments, and its options."""
    choices = [choice for given in it.arguments if not given.is_option for choice in given.settings.get("choices", ())]
    options = [name for given in it.arguments for name in given.names if name.startswith("--")]
    return [*choices, *COMMON_OPTIONS, *options]


def offers_of(commands: Sequence[Command]) -> Tuple[Dict[str, List[str]], Set[str]]:
    """What may follow each of these commands, each beginning of one and the name of the program; and those behind which
    the index is asked."""
    after: Dict[str, List[str]] = {"": ["--help", "--version"]}
    for it in commands:
        noun, _, verb = it.path.rpartition(" ")
        if noun and noun not in after:
            after[noun] = []
            after[""].append(noun)
        after[noun].append(verb)
        after[it.path] = completed(it)
    asking = {it.path for it in commands if any(given.settings.get("metavar") in FINDERS for given in it.arguments)}
    for alias, path in ALIASES.items():
        if path in after:
            after[""].append(alias)
            after[alias] = after[path]
            asking |= {alias} if path in asking else set()
    return after, asking


def script_of(commands: Sequence[Command], shell: str) -> str:
    """The script that completes these commands in this shell. zsh runs that of bash."""
    after, asking = offers_of(commands)
    if shell == "fish":
        paths = "".join(f'            case " {path}"\n' for path in after if path)
        lines = "".join(f'        case "{path and f" {path}"}"\n            set offers {" ".join(words)}\n'
                        + "            set asks yes\n" * (path in asking) for path, words in after.items())
        return FISH.replace("@PATHS@", paths).replace("@AFTER@", lines)
    paths = "".join(f'            " {path}") ;;\n' for path in after if path)
    lines = "".join(f'        "{path and f" {path}"}") offers="{" ".join(words)}"'
                    f'{" asks=yes" if path in asking else ""} ;;\n' for path, words in after.items())
    begin = ZSH if shell == "zsh" else ""
    script = BASH.replace("@BEGIN@", begin).replace("@SHELL@", shell)
    return script.replace("@PATHS@", paths).replace("@AFTER@", lines)


def read_line(words: Sequence[str]) -> Optional[Line]:
    """What stands on a line of these words, or None if the index has nothing for the last of them."""
    paths = (ALIASES.get(words[0], words[0]), " ".join(words[:2]))
    found = next((it for it in load(words[:2]) if it.path in paths), None)
    size = 1 if words[0] in ALIASES else len(found.path.split()) if found else 0
    if not found or len(words) <= size:
        return None
    with_value = WITH_VALUE | {name for it in found.arguments if "action" not in it.settings for name in it.names}
    given, profile, option = [], None, ""
    # bash makes three words of --profile=NAME
    for word in (it for it in words[size:-1] if it != "="):
        if option:
            profile, option = word if option == "--profile" else profile, ""
        elif word.startswith("-"):
            option = word if word in with_value else ""
        else:
            given.append(word)
    # from the first place of several words on, a word may be of that, and behind its first one of the next place too
    places = [it for it in found.arguments if not it.is_option]
    several = next((number for number, it in enumerate(places) if it.settings.get("nargs")), len(places))
    at = min(len(given), several)
    if option or at >= len(places):
        return None
    behind = places[at + 1:at + 2] if len(given) > at else []
    choices = [choice for it in behind for choice in it.settings.get("choices", ())]
    return Line(given, words[-1], places[at].settings.get("metavar", ""), profile, choices)


def known_names(index: Index) -> List[str]:
    return sorted({normal(it) for it in listed_names(index)})


def names_that_begin(index: Index, line: Line) -> List[str]:
    return [it for it in known_names(index) if it.startswith(normal(line.typed))]


def files_that_begin(index: Index, line: Line) -> List[str]:
    """The files of the names that may be meant; if these are many, how their files begin."""
    begin = normal(line.typed)
    meant = [it for it in known_names(index) if it.startswith(begin) or begin.startswith(f"{it}-")]
    if len(meant) > MOST_PROJECTS:
        return [f"{it.replace('-', '_')}-" for it in meant]
    found = [it.file for name in meant for it in find_contents(index, name) or []]
    return sorted(it for it in found if it.startswith(line.typed))


def releases_that_begin(index: Index, line: Line) -> List[str]:
    found = releases_of("", find_contents(index, line.given[0]) or [])
    return [it.release for it in found if it.release.startswith(line.typed.lower())]


FINDERS = {"NAME": names_that_begin, "FILE": files_that_begin, "RELEASE": releases_that_begin}


def found_in_time(line: Line) -> List[str]:
    """What the index has for a line, or nothing if it can't be asked or takes too long. It needs no token."""
    found: List[str] = []

    def look() -> None:
        with suppress(Stop, OSError):
            index = Index(find_setting(line.profile), 0, PATIENCE)
            found.extend(FINDERS[line.kind](index, line))
    looking = threading.Thread(target=look, daemon=True)
    looking.start()
    looking.join(PATIENCE)
    return [] if looking.is_alive() else [it for it in found if PLAIN.fullmatch(it) and it not in line.given]


@command("completion", argument("shell", choices=SHELLS, metavar="SHELL", help="bash, zsh or fish"),
         argument("words", nargs="*", metavar="WORD",
                  help="the words of a command line behind `--`, of which the last is typed: prints what the index has "
                       "for it"))
def completion(args: argparse.Namespace) -> None:
    """Put it where your shell finds it: for bash into ~/.local/share/bash-completion/completions/indexctl, for fish
    into ~/.config/fish/completions/indexctl.fish, and for zsh into a file that your ~/.zshrc sources. It completes
    names, files and releases from the index."""
    if not args.words:
        put(script_of(load(), args.shell), end="")
        return
    line = read_line(args.words)
    if line and line.kind in FINDERS:
        others = [it for it in line.choices if it.startswith(line.typed)]
        put("".join(f"{it}\n" for it in (*found_in_time(line), *others)), end="")
