"""Completion in bash, zsh and fish: commands by the script alone, and names, files and releases from the index."""
from __future__ import annotations

import os
import pty
import socket
import subprocess
import sys

import pytest
from support.indexctl.control import Control, environment
from support.indexctl.scripted import always, as_json, scripted
from support.needed import want_command
from support.places import TOP
from support.planted import catches
from support.serving import Index, accepted

pytestmark = pytest.mark.xdist_group("completion")
# has zsh complete a line at once, and keeps what it offers of what the script found
ZSHRC = """compadd() {
    local -a offered
    builtin compadd -O offered "$@"
    local status_of=$?
    [[ $funcstack[2] = _bash_complete && -n $offered ]] && print -rl -- $offered >> ~/offered
    return $status_of
}
zle-line-init() { BUFFER=$TYPED CURSOR=$#TYPED; zle expand-or-complete; BUFFER=exit; zle accept-line; }
zle -N zle-line-init
"""
# the tool, which waits longer for an index if that is asked for: on a busy machine one may need more than a second
TOOL = f"""#!{sys.executable} -S
import os, sys
sys.path.insert(0, "{TOP}")
from indexctl.main import main
from indexctl import completion
completion.PATIENCE = float(os.environ.get("PATIENCE", completion.PATIENCE))
sys.exit(main())
"""
BY_SCRIPT = {"nothing": ([""], {"token", "user", "case", "upload", "who", "--version"}), "use": (["use"], {"user"}),
             "user": (["user", ""], {"add", "rotate", "lock", "leave"}),
             "means": (["case", "attempt", "x", "y", "pa"], {"pages"}),
             "option": (["case", "transfer", "x", "--q"], {"--quiet"}),
             "behind_a_value": (["case", "list", "--profile", "x", "--j"], {"--json"})}
FROB = ["frob-1.0.tar.gz", "frob-1.10-py3-none-any.whl", "frob-1.9-py3-none-any.whl"]
SHORT = [f"b{at}" for at in range(9)]
BY_INDEX = {"names": (["who", "fro"], ["frob", "frost-bite"]), "a_name": (["files", "Frost_"], ["frost-bite"]),
            "further_names": (["files", "frob", ""], [*SHORT, "frost-bite"]),
            "names_behind_one": (["who", "frob", "fro"], ["frost-bite"]),
            "names_of_an_owner": (["owner", "add", "bob", "frob", "fro"], ["frost-bite"]),
            "files": (["file", "delete", "frob-1"], FROB),
            "files_behind_one": (["file", "delete", FROB[0], "frob-1"], FROB[1:]),
            "files_of_a_name": (["file", "ban", "frost"], ["frost_bite-1.0.tar.gz"]),
            "files_of_many": (["file", "delete", "b"], [f"{it}-" for it in SHORT]),
            "releases": (["release", "yank", "frob", ""], ["1.10", "1.9", "1.0"]),
            "a_release": (["release", "unyank", "frob", "1.1"], ["1.10"]),
            "releases_behind_one": (["release", "delete", "frob", "1.0", ""], ["1.10", "1.9"]),
            "nothing_behind": (["status", "frob", ""], []),
            "an_alias": (["info", "fro"], ["frob", "frost-bite"]),
            "of_a_profile": (["who", "--profile", "other", "fro"], []),
            "no_value": (["who", "--again", "fro"], [])}


@pytest.fixture(scope="module", params=["bash", "zsh", "fish"])
def shell(request, shared_folder):
    """A shell with the script, and `indexctl` on its PATH, with no token."""
    want_command(request.param, request.param)
    return Shell(request.param, Control(f"{shared_folder}/{request.param}", None, INDEX_TOKEN=None))


class Shell:
    """What a shell offers, for an index at an address."""

    def __init__(self, name: str, by: Control) -> None:
        self.name, self.folder, self.script = name, by.home, by.run("completion", name).stdout
        with open(f"{self.folder}/indexctl", "w", encoding="utf-8") as made:
            made.write(TOOL)
        os.chmod(made.name, 0o755)
        with open(f"{self.folder}/.zshrc", "w", encoding="utf-8") as made:
            made.write(f"{self.script}\n{ZSHRC}")

    def offers(self, words, **setting):
        """What it offers for the last of these words. It says nothing else."""
        path = f"{self.folder}:{os.environ['PATH']}"
        env = environment(PATH=path, HOME=self.folder, TERM="xterm", **setting)
        if self.name == "zsh":
            return self.offers_on_terminal({**env, "TYPED": " ".join(("indexctl", *words))})
        listed = " ".join(f"'{it}'" for it in ("indexctl", *words))
        asks = (f"COMP_WORDS=({listed}); COMP_CWORD={len(words)}; _indexctl; printf '%s\\n' \"${{COMPREPLY[@]}}\""
                if self.name == "bash" else f'complete -C "{" ".join(("indexctl", *words))}"')
        ended = subprocess.run([self.name, "-c", f"{self.script}\n{asks}"], stdout=subprocess.PIPE, text=True,
                               stderr=subprocess.PIPE, timeout=60, cwd=self.folder, env=env)
        assert ended.stderr == "", ended.stderr
        return ended.stdout.split()

    def offers_on_terminal(self, env):
        """The same of zsh, which completes on a terminal alone."""
        ours, its = pty.openpty()
        with open(f"{self.folder}/offered", "w", encoding="utf-8"):
            pass
        try:
            subprocess.run(["zsh", "-i"], stdin=its, stdout=its, stderr=its, cwd=self.folder, timeout=60, check=True,
                           start_new_session=True, env=env)
        finally:
            os.close(ours)
            os.close(its)
        with open(f"{self.folder}/offered", encoding="utf-8") as kept:
            return kept.read().split()


@catches("indexctl/completion.py", 'COMPREPLY=($(compgen -W "$offers" -- "$word"))', "COMPREPLY=()",
         ("indexctl/completion.py", 'set found (string match -- "$word*" $offers)', "set found"), case="bash-user",
         also=["test_a_shell_completes_commands_and_options[zsh-user]",
               "test_a_shell_completes_commands_and_options[fish-user]"])
@pytest.mark.parametrize("what", BY_SCRIPT)
def test_a_shell_completes_commands_and_options(shell, what):
    words, wanted = BY_SCRIPT[what]
    assert wanted <= set(shell.offers(words))


@pytest.fixture(scope="module")
def full_url(program):
    """The address of an index with names, files and a release that came in no order."""
    with Index(program) as index:
        for name in ("frob", "Frost.Bite", *SHORT):
            accepted(index.claim(name))
        for file in FROB:
            accepted(index.upload("frob", file, file.encode()))
        accepted(index.upload("frost-bite", "frost_bite-1.0.tar.gz", b"x"))
        yield f"http://127.0.0.1:{index.port}"


@catches("indexctl/completion.py", "if [[ -n $asks && $word != -* ]]; then", "if [[ -n $asks && $word = -* ]]; then",
         ("indexctl/completion.py", 'if set -q asks[1]; and not string match -q -- "-*" $word',
          'if set -q asks[1]; and string match -q -- "-*" $word'), case="bash-names",
         also=["test_a_shell_completes_what_the_index_has[zsh-names]",
               "test_a_shell_completes_what_the_index_has[fish-names]"])
@catches("indexctl/completion.py", "if line and line.kind in FINDERS:", "if line and line.kind not in FINDERS:",
         case="bash-names")
@pytest.mark.parametrize("what", BY_INDEX)
def test_a_shell_completes_what_the_index_has(shell, full_url, what):
    words, wanted = BY_INDEX[what]
    # zsh passes over what does not begin as it was typed, such as another spelling
    wanted = [it for it in wanted if shell.name != "zsh" or it.startswith(words[-1])]
    offered = [it for it in shell.offers(words, INDEX_URL=full_url, PATIENCE="30") if not it.startswith("--")]
    assert offered == wanted


@catches("indexctl/completion.py", "index = Index(find_setting(line.profile), 0, PATIENCE)",
         "index = Index(find_setting(line.profile), 0)",
         ("indexctl/completion.py", "looking.join(PATIENCE)", "looking.join(90)"))
def test_nothing_is_offered_and_nothing_said_if_the_index_does_not_answer(shell):
    """Also by one that takes the connection and says nothing: other commands wait for that for a minute and a half, and
    a shell has a minute here."""
    with socket.create_server(("127.0.0.1", 0)) as silent:
        url = f"http://127.0.0.1:{silent.getsockname()[1]}"
        for setting in ({"INDEX_URL": url}, {"INDEX_URL": "http://127.0.0.1:9"}, {"INDEX_URL": "no address"}, {},
                        {"INDEX_URL": url, "INDEX_TOKEN_FILE": "/none"}, {"INDEX_URL": "https://host.invalid"}):
            assert shell.offers(["who", "fro"], **setting) == [], setting


@catches("indexctl/completion.py", "[it for it in found if PLAIN.fullmatch(it) and it not in line.given]",
         "[it for it in found if it not in line.given]")
def test_no_text_of_a_server_becomes_a_command(shell):
    names = [{"name": it} for it in ("fro$(touch /tmp/x)", "fro`id`", "fro;id", "fro b", "frob", "fro'", "fro\n-x")]
    with scripted(always(*as_json({"meta": {}, "projects": names}))) as server:
        assert shell.offers(["who", "fro"], INDEX_URL=server.url, PATIENCE="30") == ["frob"]


def test_a_file_whose_name_is_a_command_is_quoted(tmp_path):
    """A person completes it, and presses Enter."""
    (tmp_path / "a$(touch run) b.db").write_text("")
    keys = (f"source {TOP}/indexctl/index.bash-completion\nindex() {{ printf '%s\\n' \"$@\" > said; }}\n"
            "index serve --db a\t\nexit\n")
    ours, its = pty.openpty()
    try:
        os.write(ours, keys.encode())
        subprocess.run(["bash", "--norc", "--noprofile", "-i"], stdin=its, stdout=its, stderr=its, cwd=tmp_path,
                       timeout=60, check=True, start_new_session=True,
                       env=environment(HOME=str(tmp_path), TERM="xterm"))
    finally:
        os.close(ours)
        os.close(its)
    assert (tmp_path / "said").read_text() == "serve\n--db\na$(touch run) b.db\n"
    assert not (tmp_path / "run").exists()
