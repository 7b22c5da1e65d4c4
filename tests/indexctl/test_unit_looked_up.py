"""The blocks of the office's page that look up licences, needs and vulnerabilities, against a server that stands for
the index and for OSV: https://google.github.io/osv.dev/post-v1-querybatch has what that is asked and answers."""
from __future__ import annotations

import json
import subprocess

import pytest
from support.indexctl.scripted import as_json, scripted
from support.needed import want_command
from support.server.pasted import block

NEEDS = {"amber": ["requests (>=2.8)", "basalt"], "basalt": [], "cobalt": ["Requests[socks]>=2; extra == 'x'"],
         "driftwood": ["requests-toolbelt", "requests.x>1", "a-requests"], "ember": ["requests"]}


def rows(count):
    """Projects, the first with these needs, of which driftwood has no release."""
    names = [*NEEDS, *(f"n{at}" for at in range(count))]
    return [{"name": it, "newest": "" if it == "driftwood" else "1.0", "licence": "MIT" if it < "c" else "",
             "owners": ["ann", "bob"] if it == "amber" else ["ann"], "needs": NEEDS.get(it, [])} for it in names]


def does(starts, folder, count=0):
    """What a block prints, and what OSV was asked."""
    want_command("jq", "jq")

    def answer(method, _path, body, _headers):
        if method == "GET":
            return as_json({"index": "https://packages.example", "projects": rows(count)})
        asked = json.loads(body)["queries"]
        # this is how it answers: a row for each query in their order, empty if it knows nothing of it
        return as_json({"results": [{"vulns": [{"id": "GHSA-1", "modified": "x"}, {"id": "PYSEC-2"}]}
                                    if it == {"version": "1.0", "package": {"name": "basalt", "ecosystem": "PyPI"}}
                                    else {} for it in asked]})
    with scripted(answer) as server:
        text = block(starts).replace("https://packages.example", server.url).replace("https://api.osv.dev", server.url)
        ended = subprocess.run(["bash", "-euo", "pipefail", "-c", text], cwd=folder, timeout=120, text=True,
                               stdin=subprocess.DEVNULL, stdout=subprocess.PIPE, stderr=subprocess.STDOUT)
        assert ended.returncode == 0, ended.stdout
        return ended.stdout, [(it[1], json.loads(it[2])["queries"]) for it in server.asked if it[0] == "POST"]


def test_licences_and_those_that_need_a_project_are_listed(tmp_path):
    said, asked = does("curl -fsSO https://packages.example/browse/projects.json", tmp_path)
    assert said == ("\tcobalt\t1.0\n\tdriftwood\t\n\tember\t1.0\nMIT\tamber\t1.0\nMIT\tbasalt\t1.0\n"
                    "amber: ann, bob\ncobalt: ann\nember: ann\n") and asked == []


@pytest.mark.parametrize("count, batches", [(0, [4]), (1_000, [500, 500, 4])])
def test_osv_is_asked_for_the_newest_releases(tmp_path, count, batches):
    said, asked = does("curl -fsS https://packages.example/browse/projects.json |", tmp_path, count)
    assert said == "basalt 1.0: GHSA-1, PYSEC-2\n"
    assert [path for path, _ in asked] == ["/v1/querybatch"] * len(batches) and [len(it) for _, it in asked] == batches
    assert not [it for _, queries in asked for it in queries if it["package"]["name"] == "driftwood"]
