"""Where nginx's log of changes is, by nginx's own configuration, and what was rotated away beside it."""
from __future__ import annotations

import os

import pytest
from support.library import log_place
from support.planted import catches
from support.server.front import kept

ELSEWHERE = "    access_log /srv/logs/changes.log index_changes if=$is_change;\n"


@catches("server/lib/package_index/log_place.py", r"r'^\s*access_log", "r'access_log")
@catches("server/lib/package_index/log_place.py", r"\s+index_changes\b'", r"\b'")
@pytest.mark.parametrize("text, log", [
    (kept("packages.conf"), "/var/log/package-index/changes.log"), (ELSEWHERE, "/srv/logs/changes.log"),
    (ELSEWHERE.replace("/srv/logs/changes.log", '"/srv/logs/changes.log"'), "/srv/logs/changes.log"),
    (f"access_log /var/log/a.log;\n# access_log /none index_changes;\n{ELSEWHERE}", "/srv/logs/changes.log"),
    ("access_log /a.log index_changes_too;\n", "/var/log/package-index/changes.log"),
    ("", "/var/log/package-index/changes.log")])
def test_the_log_is_where_nginx_writes_it(tmp_path, text, log):
    (tmp_path / "packages.conf").write_text(text)
    assert log_place.log_of_changes(str(tmp_path / "packages.conf")) == log


def test_what_is_no_text_hides_no_log(tmp_path):
    """As a comment in Latin-1."""
    (tmp_path / "packages.conf").write_bytes(b"# f\xfcr uns\n" + ELSEWHERE.encode())
    assert log_place.log_of_changes(str(tmp_path / "packages.conf")) == "/srv/logs/changes.log"


@catches("server/lib/package_index/log_place.py", "except OSError:", "except ValueError:")
def test_without_nginx_it_is_that_of_the_package(tmp_path):
    assert log_place.log_of_changes(str(tmp_path / "none")) == "/var/log/package-index/changes.log"


@catches("server/lib/package_index/log_place.py", "    log = os.path.realpath(log)", "",
         also=["server/test_rotation.py::test_what_was_rotated_away_is_found_by_the_name_of_before_too"])
def test_what_was_rotated_away_is_beside_what_a_link_leads_to(tmp_path):
    """After an upgrade nginx may write by the name of before."""
    for folder, names in (("old", ["other.log", "changes.log.9"]),
                          ("new", ["changes.log", "changes.log.1", "changes.log.10.gz", "changes.log.2.gz"])):
        (tmp_path / folder).mkdir()
        for name in names:
            (tmp_path / folder / name).touch()
    os.symlink(tmp_path / "new/changes.log", tmp_path / "old/changes.log")
    wanted = [f"{tmp_path}/new/changes.log{it}" for it in (".10.gz", ".2.gz", ".1", "")]
    for folder in ("old", "new"):
        assert log_place.rotated(f"{tmp_path}/{folder}/changes.log") == wanted
