"""Files that are read and checked before the first goes out."""
from __future__ import annotations

import hashlib
import io
import os
import re
import tarfile
import zipfile

import pytest
from indexctl import uploads
from indexctl.ends import WRONG, Stop
from indexctl.terminal import say_row
from indexctl.uploads import File
from support.planted import catches

TEXT = "Metadata-Version: 2.1\nName: Frob\nVersion: 1.0\n"


def wheel(folder, name="frob-1.0-py3-none-any.whl", text=TEXT, inside=("frob-1.0.dist-info/METADATA",), size=0):
    with zipfile.ZipFile(folder / name, "w") as made:
        for path in inside:
            made.writestr(path, text)
        made.writestr("filler", os.urandom(size))
    return str(folder / name)


def source(folder, name="frob-1.0.tar.gz", text=TEXT, inside=("frob-1.0/PKG-INFO",)):
    with tarfile.open(folder / name, "w:gz") as made:
        for path in inside:
            entry = tarfile.TarInfo(path)
            entry.size = len(text.encode())
            made.addfile(entry, io.BytesIO(text.encode()))
        folder_entry = tarfile.TarInfo("x/PKG-INFO")
        folder_entry.type = tarfile.DIRTYPE
        made.addfile(folder_entry)
    return str(folder / name)


@pytest.mark.parametrize("make", [wheel, source])
def test_a_file_is_known_by_its_name_and_its_bytes(tmp_path, make):
    file = File(make(tmp_path))
    with open(file.path, "rb") as kept:
        data = kept.read()
    assert (file.project, file.shown, file.requires, file.is_wheel) == ("frob", "Frob", "", make is wheel)
    assert (file.size, file.digest, b"".join(file.pieces())) == (len(data), hashlib.sha256(data).hexdigest(), data)


@pytest.mark.parametrize("path", [
    "frob-1.0/PKG-INFO", "./frob-1.0/PKG-INFO", "frob-1.0.dist-info/METADATA"])
def test_the_metadata_is_the_file_of_just_this_path(tmp_path, path):
    make = wheel if "METADATA" in path else source
    assert File(make(tmp_path, inside=(f"{path}.txt", path, f"x/{path}", f"{path}/x"))).shown == "Frob"


@pytest.mark.parametrize("requires", ["", ">=3.8", ">=3.8, <4", "~=3.8", "==3.*", "===3.8", "!=3.9,>3", "> 3", "<=4"])
def test_a_list_of_specifiers_is_taken(tmp_path, requires):
    assert File(wheel(tmp_path, text=f"{TEXT}Requires-Python: {requires}\n")).requires == requires


@pytest.mark.parametrize("requires", ["3.8", ">=3.8 <4", ">=", ">=3.8,", "=>3", ">=3.8;x", "any", ">=\u0663"])
def test_what_is_no_list_of_specifiers_is_refused(tmp_path, requires):
    with pytest.raises(Stop, match="its Requires-Python") as end:
        File(wheel(tmp_path, text=f"{TEXT}Requires-Python: {requires}\n"))
    assert end.value.status == WRONG


@pytest.mark.parametrize("size, is_taken", [(512, True), (513, False)])
def test_a_requires_python_has_512_bytes_at_most(tmp_path, size, is_taken):
    path = wheel(tmp_path, text=f"{TEXT}Requires-Python: >={'1' * (size - 2)}\n")
    if is_taken:
        assert len(File(path).requires) == size
    else:
        with pytest.raises(Stop, match="the index can't take its Requires-Python"):
            File(path)


def test_a_requires_python_over_several_lines_is_one(tmp_path):
    assert File(wheel(tmp_path, text=f"{TEXT}Requires-Python: >=3.8,\n  <4\n")).requires == ">=3.8, <4"


@pytest.mark.parametrize("more, is_taken", [(0, True), (1, False)])
def test_a_file_has_16_mib_at_most(tmp_path, monkeypatch, more, is_taken):
    path = wheel(tmp_path)
    assert uploads.MOST_BYTES == 16 << 20
    monkeypatch.setattr(uploads.os.path, "getsize", lambda _: uploads.MOST_BYTES + more)
    if is_taken:
        assert File(path).size == uploads.MOST_BYTES
    else:
        with pytest.raises(Stop, match="the index takes 16777216 at most") as end:
            File(path)
        assert end.value.status == WRONG


@pytest.mark.parametrize("inside", [(), ("a-1.dist-info/METADATA", "b-1.dist-info/METADATA"),
                                    ("x/a-1.dist-info/METADATA",), ("a-1.dist-info/METADATA2",)])
def test_a_wheel_has_one_file_of_metadata(tmp_path, inside):
    with pytest.raises(Stop, match="files of metadata instead of one") as end:
        File(wheel(tmp_path, inside=inside))
    assert end.value.status == WRONG


@pytest.mark.parametrize("inside, is_one", [(("./frob-1.0/PKG-INFO",), True), (("frob-1.0/x/PKG-INFO",), False),
                                            (("PKG-INFO",), False), (("a/PKG-INFO", "b/PKG-INFO"), False)])
def test_a_source_archive_has_one_file_of_metadata(tmp_path, inside, is_one):
    path = source(tmp_path, inside=inside)
    if is_one:
        assert File(path).project == "frob"
    else:
        with pytest.raises(Stop, match="files of metadata instead of one"):
            File(path)


def test_another_name_inside_is_refused(tmp_path):
    with pytest.raises(Stop, match="the name inside is 'Spam'") as end:
        File(wheel(tmp_path, text=TEXT.replace("Frob", "Spam")))
    assert end.value.status == WRONG


@pytest.mark.parametrize("version, is_told", [("1.0", False), ("2.0", True), ("1-0", False)])
def test_another_version_inside_is_told(tmp_path, capsys, version, is_told):
    File(wheel(tmp_path, text=TEXT.replace("1.0", version)))
    assert ("the version inside is" in capsys.readouterr().err) == is_told


@pytest.mark.parametrize("name", ["frob.whl", "frob-1.0.7z", "x" * 250 + "-1.0.tar.gz"])
def test_a_name_of_another_kind_is_refused(name):
    with pytest.raises(Stop, match="not the name of a wheel or of a .tar.gz") as end:
        File(name)
    assert end.value.status == WRONG


@catches("indexctl/uploads.py", "if self.name.endswith(OTHER_ARCHIVES):", "if False:")
@pytest.mark.parametrize("name", ["frob-1.0.zip", "frob-1.0-py3.8.egg", "frob-1.0.tar.bz2", "frob-1.0.tar.xz"])
def test_of_another_archive_it_is_told_what_the_index_takes(name):
    with pytest.raises(Stop, match=r"takes .whl and .tar.gz alone. `python3 -m build` makes both.") as end:
        File(name)
    assert end.value.status == WRONG


@catches("indexctl/uploads.py",
         'if not self.is_wheel and self.shown and self.project.startswith(f"{normal(self.shown)}-"):', "if False:",
         ("server/bin/index-legacy-upload",
          'if said and not self.file.endswith(".whl") and self.project.startswith(f"{normal(said)}-"):', "if False:"),
         also=["clients/test_uploads_by_forms.py::test_a_form_is_refused_and_the_index_is_not_asked"])
def test_of_a_version_with_a_hyphen_it_is_told_how_to_write_it(tmp_path):
    """setuptools wrote such names: a new build of the same version would have the same."""
    with pytest.raises(Stop, match="its version has a hyphen.*such as 1.0b1 for 1.0-beta1"):
        File(source(tmp_path, "frob-1.0-beta1.tar.gz", TEXT.replace("1.0", "1.0-beta1")))
    with pytest.raises(Stop, match="the name inside is 'Frob'. The file name decides"):
        File(source(tmp_path, "frobber-1.0.tar.gz"))
    with pytest.raises(Stop, match="the name inside is ''"):
        File(source(tmp_path, "frob-1.0.tar.gz", "Version: 1.0\n"))


def test_of_a_folder_wheels_and_archives_are_taken_in_their_order(tmp_path, capsys, monkeypatch):
    for name in ("b.whl", "a.tar.gz", "c.zip", "d.tar.bz2", "e.tar.xz", "f.egg", "README", "g.asc"):
        (tmp_path / name).write_text("")
    names = sorted(os.listdir(tmp_path), reverse=True)
    monkeypatch.setattr(uploads.os, "listdir", lambda _: names)
    assert [os.path.basename(it) for it in uploads.files_in(str(tmp_path))] == ["a.tar.gz", "b.whl"]
    assert [it.split("/")[-1].split(" ")[0] for it in capsys.readouterr().err.splitlines()] == [
        "c.zip", "d.tar.bz2", "e.tar.xz", "f.egg"]


def test_a_folder_without_files_is_told(tmp_path):
    with pytest.raises(Stop, match="no .whl and no .tar.gz is in this folder") as end:
        uploads.files_in(str(tmp_path))
    assert end.value.status == WRONG


def test_wheels_go_first_and_then_by_name(tmp_path):
    source(tmp_path)
    for tag in ("b", "a"):
        wheel(tmp_path, f"frob-1.0-py3-none-{tag}.whl")
    found = uploads.files_of([str(tmp_path / "frob-1.0.tar.gz"), str(tmp_path / "frob-1.0-py3-none-b.whl"),
                              str(tmp_path / "frob-1.0-py3-none-a.whl")])
    assert [it.name for it in found] == ["frob-1.0-py3-none-a.whl", "frob-1.0-py3-none-b.whl", "frob-1.0.tar.gz"]
    assert len(uploads.files_of([str(tmp_path)])) == 3


@pytest.mark.parametrize("name", ["frob-1.0-py3-none-any.whl", "frob-1.0.tar.gz"])
@pytest.mark.parametrize("data", [b"", b"no archive", None], ids=["empty", "other", "missing"])
def test_a_file_that_is_no_archive_is_told(tmp_path, name, data):
    if data is not None:
        (tmp_path / name).write_bytes(data)
    path = str(tmp_path / name)
    said = "there is no such file or folder" if data is None else "it can't be read: "
    with pytest.raises(Stop, match=f"^{re.escape(path)}: {said}") as end:
        uploads.files_of([path])
    assert end.value.status == WRONG


def test_metadata_that_is_no_text_is_told(tmp_path):
    with zipfile.ZipFile(tmp_path / "frob-1.0-py3-none-any.whl", "w") as made:
        made.writestr("frob-1.0.dist-info/METADATA", b"\xff")
    with pytest.raises(Stop, match="frob-1.0-py3-none-any.whl: it can't be read: "):
        uploads.files_of([str(tmp_path)])


@catches("indexctl/uploads.py", '''raise Stop(WRONG, f"{path}: it can't be read''',
         '''raise Stop(WRONG, f"A file: it can't be read''')
@pytest.mark.parametrize("compression", [zipfile.ZIP_DEFLATED, zipfile.ZIP_BZIP2, zipfile.ZIP_LZMA])
def test_of_several_files_the_damaged_one_is_named(tmp_path, compression):
    wheel(tmp_path)
    inside, damaged = "frob-1.1.dist-info/METADATA", tmp_path / "frob-1.1-py3-none-any.whl"
    with zipfile.ZipFile(damaged, "w", compression) as made:
        made.writestr(inside, TEXT * 50)
    data = bytearray(damaged.read_bytes())
    data[len(inside) + 42] ^= 0xff
    damaged.write_bytes(data)
    with pytest.raises(Stop, match=f"^{re.escape(str(damaged))}: it can't be read: ") as end:
        uploads.files_of([str(tmp_path)])
    assert end.value.status == WRONG


@catches("indexctl/archives.py",
         'with Unpacked(fileobj=data) as unpacked, tarfile.open(fileobj=cast(IO[bytes], unpacked), mode="r:") '
         "as archive:", "with tarfile.open(fileobj=data) as archive:")
@pytest.mark.parametrize("mode", ["w", "w:bz2", "w:xz"])
def test_a_source_archive_that_is_not_compressed_by_gzip_is_refused(tmp_path, mode):
    """pip would not open it, and its name would be bound to these bytes for good."""
    with tarfile.open(tmp_path / "frob-1.0.tar.gz", mode) as made:
        entry = tarfile.TarInfo("frob-1.0/PKG-INFO")
        entry.size = len(TEXT)
        made.addfile(entry, io.BytesIO(TEXT.encode()))
    with pytest.raises(Stop, match="frob-1.0.tar.gz: it can't be read: Not a gzipped file"):
        uploads.files_of([str(tmp_path)])


@catches("indexctl/uploads.py", "if hashlib.sha256(data).hexdigest() != self.digest:", "if not self.digest:")
@pytest.mark.parametrize("how", [os.remove, lambda path: os.truncate(path, 100), lambda path: os.truncate(path, 9_999)],
                         ids=["gone", "shorter", "longer"])
def test_a_file_that_changed_since_it_was_checked_does_not_go_out(tmp_path, how):
    file = File(wheel(tmp_path))
    how(file.path)
    with pytest.raises(Stop, match="frob-1.0-py3-none-any.whl: it changed") as end:
        next(file.pieces())
    assert end.value.status == WRONG


def test_the_bytes_go_out_in_pieces(tmp_path):
    file = File(wheel(tmp_path, size=uploads.PIECE * 2))
    sizes = [len(it) for it in file.pieces()]
    assert sizes[:2] == [1 << 18] * 2 and sum(sizes) == file.size


class FakeDesk:
    """Answers uploads in order, and claims as told."""

    def __init__(self, *answers, claims=True):
        self.left, self.sent, self.claimed, self.told, self.claims = list(answers), [], [], [], claims

    def send(self, what, row, request):
        self.sent.append((row, request))
        return self.left.pop(0)

    def say(self, text, row=None):
        say_row(False, text, row)

    def change(self, what, row):
        self.claimed.append((row["do"], row["name"]))
        return self.claims

    def tell(self, what, row, status, answer):
        self.told.append((status, answer))
        return False


def test_an_upload_has_the_digest_and_the_python_in_its_headers(tmp_path, capsys):
    file, desk = File(wheel(tmp_path, text=f"{TEXT}Requires-Python: >=3.8\n")), FakeDesk((201, "accepted"))
    assert uploads.upload_file(desk, file, False)
    (row, request), = desk.sent
    assert row == {"do": "upload", "file": file.name, "sha256": file.digest, "requires_python": ">=3.8"}
    assert (request.method, request.path, request.length) == ("PUT", f"/files/frob/{file.name}", file.size)
    assert dict(request.headers) == {"X-Index-SHA256": file.digest, "X-Requires-Python": ">=3.8"}
    assert f"{file.name}: uploaded, {file.size} bytes in " in capsys.readouterr().out


@pytest.mark.parametrize("status, said", [(201, "uploaded"), (200, "is there already")])
def test_a_file_that_is_there_already_is_no_error(tmp_path, capsys, status, said):
    assert uploads.upload_file(FakeDesk((status, "x")), File(wheel(tmp_path)), False)
    assert f": {said}, " in capsys.readouterr().out


def test_an_upload_shows_on_a_terminal_how_far_it_is(tmp_path, monkeypatch, capsys):
    """Each trial, of which the first may break off."""
    class Sends(FakeDesk):
        def send(self, what, row, request):
            assert b"".join(request.pieces()) == file.read()
            return super().send(what, row, request)
    monkeypatch.setattr("sys.stderr.isatty", lambda: True)
    monkeypatch.setenv("TERM", "xterm")
    monkeypatch.setenv("COLUMNS", "90")
    file = File(wheel(tmp_path, size=3 << 20))
    assert uploads.upload_file(Sends((404, "NoProject"), (201, "x")), file, True)
    out = capsys.readouterr()
    waits = f"{file.name}: 3.0 MiB sent, waiting for the index"
    assert out.err.count(waits) == 2 and " of 3.0 MiB, " in out.err and out.err.endswith("\r\033[K")
    assert out.out.startswith(f"{file.name}: uploaded")


def test_a_check_of_many_files_shows_how_far_it_is(tmp_path, monkeypatch, capsys):
    for at in range(3):
        wheel(tmp_path, f"frob-1.{at}-py3-none-any.whl", TEXT.replace("1.0", f"1.{at}"))
    monkeypatch.setattr("sys.stderr.isatty", lambda: True)
    monkeypatch.setenv("TERM", "xterm")
    assert len(uploads.files_of([str(tmp_path)])) == 3
    assert capsys.readouterr().err.startswith("\rfiles that are checked: 1 of 3, 33 %")


def test_a_name_is_claimed_if_that_was_asked_for(tmp_path):
    desk = FakeDesk((404, "NoProject"), (201, "accepted"))
    assert uploads.upload_file(desk, File(wheel(tmp_path)), True)
    assert (desk.claimed, len(desk.sent)) == ([("claim", "Frob")], 2)


def test_a_name_is_not_claimed_unasked(tmp_path):
    desk = FakeDesk((404, "NoProject"))
    assert not uploads.upload_file(desk, File(wheel(tmp_path)), False)
    assert (desk.claimed, desk.told) == ([], [(404, "NoProject")])


def test_a_claim_that_was_refused_ends_the_upload_of_the_file(tmp_path):
    desk = FakeDesk((404, "NoProject"), claims=False)
    assert not uploads.upload_file(desk, File(wheel(tmp_path)), True)
    assert len(desk.sent) == 1
