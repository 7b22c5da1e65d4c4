"""Each block of USING says whether it is tested, and each that is called tested has a test that runs it."""
import ast
import glob
import os
import re
import shlex
from concurrent.futures import ThreadPoolExecutor

from support.clients.page import read_recipes
from support.clients.world import PAGE
from support.needed import want_command
from support.planted import catches
from support.running import run_command
from support.seen import Seen

# followed by each person, who trusts the certificate by it
BY_ALL = {"A CA of your own"}
AT_ONCE = 24


def followed_blocks():
    """The blocks that tests are marked with."""
    for path in sorted(glob.glob(f"{os.path.dirname(__file__)}/test_*.py")):
        with open(path, encoding="utf-8") as kept:
            tree = ast.parse(kept.read())
        for it in ast.walk(tree):
            if isinstance(it, ast.Call) and isinstance(it.func, ast.Attribute) and it.func.attr == "follows":
                yield from (word.value for word in it.args)


def test_each_block_says_whether_it_is_tested():
    _, unmarked = read_recipes(PAGE)
    assert not unmarked, f"the blocks in these lines of {PAGE} have no caption, or one that another has: {unmarked}"


def test_each_block_that_is_called_tested_has_a_test():
    recipes, _ = read_recipes(PAGE)
    tested = {name for name, it in recipes.items() if it.is_tested}
    assert tested == {*followed_blocks()} | BY_ALL


def test_an_authority_that_is_made_as_the_page_says_is_trusted_strictly(tmp_path, looked):
    """As Python looks at one from 3.13 on. One without `keyUsage` is refused."""
    want_command("openssl", "openssl")
    with open(PAGE, encoding="utf-8") as page:
        said = shlex.split(re.search("`(openssl req [^`]+)`", page.read())[1])
    for words, is_taken in ((said, True), (said[:said.index("-addext")], False)):
        made = {name: f"{tmp_path}/{len(words)}{name}" for name in ("authority", "key", "server")}
        of_new = ["-newkey", "rsa:2048", "-nodes", "-subj"]
        run_command([*words, *of_new, "/CN=authority", "-keyout", made["key"], "-out", made["authority"]])
        run_command([*said, *of_new, "/CN=server", "-keyout", os.devnull, "-CA", made["authority"], "-CAkey",
                     made["key"], "-out", made["server"]])
        ended = run_command(["openssl", "verify", "-x509_strict", "-CAfile", made["authority"], made["server"]])
        looked((ended.returncode == 0) == is_taken, words, ended.stdout)


@catches("tests/support/server/front.py", "worker_connections 768;", "worker_connections 72;")
def test_nginx_serves_many_at_once_without_a_complaint(world, looked):
    files = [f"/files/{project}/{file}" for project, files in world.packages.items() for file in files]
    with ThreadPoolExecutor(AT_ONCE) as pool:
        got = list(pool.map(lambda path: world.gate.ask("GET", path)[0], files * 10))
    looked({*got} == {200}, Seen(f"{len(got)} files, {AT_ONCE} at a time", got, 200))
    complaints = [*world.gate.errors(), *world.locked.errors()]
    looked(not complaints, Seen("the log of nginx", complaints, "no alert"))
