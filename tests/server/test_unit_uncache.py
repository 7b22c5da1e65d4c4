"""What index-uncache is asked for, and what it finds."""
import os

import pytest
from support.library import cache as places
from support.library import ends
from support.planted import catches
from support.programs import program_of
from support.unit import ends as ends_of

UNCACHE = program_of("index-uncache")


@pytest.mark.parametrize("name, file, asked", [
    ("Frob_1", "", ("frob-1", "")), ("frob", "frob-1.0%2Bx.whl", ("frob", "frob-1.0+x.whl")),
    ("frob", "/files/frob/frob-1.0.whl", ("frob", "frob-1.0.whl")),
    ("/files/Frob/frob-1.0%2Bx.whl", "", ("frob", "frob-1.0+x.whl")),
    ("https://a.example/files/frob/frob-1.0.whl#sha256=ab", "", ("frob", "frob-1.0.whl"))])
def test_a_file_is_named_by_its_project_or_its_address(name, file, asked):
    assert UNCACHE.asked_for(name, file) == asked


@pytest.mark.parametrize("name, file", [("/files/frob/a.whl/b", ""), ("/simple/frob/", ""), ("/files/frob/a", "b"),
                                        ("files/frob", ""), ("/files/frob/", "")])
def test_an_address_of_no_file_is_refused(name, file):
    with pytest.raises(ends.Refused, match="no name of a project, and no address of a file"):
        UNCACHE.asked_for(name, file)


def test_the_files_of_a_project_come_in_their_order(tmp_path, monkeypatch):
    kept = [UNCACHE.Kept(name, f"/{name}") for name in ("c-1.whl", "a_1.whl", "b-1.whl")]
    monkeypatch.setattr(UNCACHE, "kept_of", lambda cache, project: iter(kept))
    assert UNCACHE.found(str(tmp_path), "x", "") == (sorted(kept), [])
    assert UNCACHE.found(str(tmp_path), "x", "A-1.whl") == ([kept[1]], ["b-1.whl", "c-1.whl"])
    assert UNCACHE.found(str(tmp_path), "x", "d-1.whl") == ([], ["a_1.whl", "b-1.whl", "c-1.whl"])


def test_a_key_is_the_second_line_of_the_head_and_a_file_that_is_gone_has_none(tmp_path):
    (tmp_path / "kept").write_bytes(b"\0\1\nKEY: /files/frob/a.whl\nHTTP/1.1 200 OK\nKEY: /x\n")
    (tmp_path / "other").write_bytes(b"x" * 5000 + b"\nKEY: /files/frob/a.whl\n")
    assert [UNCACHE.key_of(str(tmp_path / it)) for it in ("kept", "other", "none")] == ["/files/frob/a.whl", "", ""]


def test_what_is_taken_out_and_what_is_not_there_is_told(tmp_path, monkeypatch, capsys):
    for name in ("frob-1.0.whl", "frob-2.0.whl"):
        path = places.place_of_file(str(tmp_path), "frob", name)
        os.makedirs(os.path.dirname(path))
        with open(path, "wb") as kept:
            kept.write(f"\nKEY: /files/frob/{name}\n".encode())
    for words, ended in [
            (["frob", "frob-1.0.whl"], (0, "removed /files/frob/frob-1.0.whl\n", "")),
            (["frob", "frob-1.0.whl"], (1, "", "index-uncache: nginx keeps no /files/frob/frob-1.0.whl, but "
                                               "frob-2.0.whl\n")),
            (["Frob"], (0, "removed /files/frob/frob-2.0.whl\n", "")),
            (["frob"], (1, "", "index-uncache: nginx keeps no /files/frob/\n"))]:
        assert ends_of(UNCACHE, monkeypatch, capsys, *words, "--cache", tmp_path) == ended


def test_at_most_nine_others_are_named(tmp_path, monkeypatch, capsys):
    monkeypatch.setattr(UNCACHE, "found", lambda *_: ([], [f"frob-{it}.whl" for it in range(11)]))
    _, _, err = ends_of(UNCACHE, monkeypatch, capsys, "frob", "a.whl", "--cache", tmp_path)
    assert err.endswith("/a.whl, but " + ", ".join(f"frob-{it}.whl" for it in range(9)) + "\n")


def test_a_folder_that_is_not_there_is_told(tmp_path, monkeypatch, capsys):
    said = f"index-uncache: {tmp_path}/none is not there; name nginx's folder by --cache\n"
    assert ends_of(UNCACHE, monkeypatch, capsys, "frob", "--cache", f"{tmp_path}/none") == (2, "", said)


@catches("server/bin/index-uncache", "        sync(folder)", "        pass")
def test_what_was_taken_out_is_so_on_the_disk_before_it_is_told(tmp_path, monkeypatch, capsys):
    kept = [UNCACHE.Kept(name, str(tmp_path / place)) for name, place in (("a", "x/1"), ("b", "x/2"), ("c", "y/3"))]
    for it in kept:
        os.makedirs(os.path.dirname(it.path), exist_ok=True)
        open(it.path, "w").close()
    synced = []

    def sync(folder):
        synced.append((folder, os.listdir(folder), capsys.readouterr().out))

    monkeypatch.setattr(UNCACHE, "sync", sync)
    UNCACHE.take_out("frob", kept)
    assert sorted(synced) == [(str(tmp_path / it), [], "") for it in ("x", "y")]
    assert capsys.readouterr().out == "".join(f"removed /files/frob/{it}\n" for it in "abc")
