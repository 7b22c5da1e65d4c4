"""What the pages of operators have a person paste, where no machine is needed for it."""
from __future__ import annotations

import os
import re
from pathlib import Path

import pytest
from support.needed import want_command
from support.places import SERVER, TOP
from support.running import run_command, write_below
from support.server.pasted import block
from support.server.stand_ins import called, stand_ins
from support.server.watched import unit

PAGES = "INSTALL", "OPERATING", "RECOVERY", "SCALING"


def page(name: str) -> str:
    return Path(f"{TOP}/docs/operators/{name}.md").read_text(encoding="utf-8")


def renewed(live: Path, number: int) -> None:
    """What certbot does at each renewal: new files, to which its links lead then."""
    archive = live.parent.parent / "archive"
    for name in ("fullchain", "privkey"):
        (archive / f"{name}{number}.pem").write_text(f"{name} {number}")
        (live / f"{name}.pem").unlink(missing_ok=True)
        (live / f"{name}.pem").symlink_to(f"../../archive/{name}{number}.pem")


def test_nginx_has_the_files_that_certbot_renews_and_reads_them_again(tmp_path):
    etc, path = tmp_path / "etc", stand_ins(f"{tmp_path}/bin", systemctl="")
    live = etc / "letsencrypt" / "live" / "packages.example"
    for folder in (etc / "ssl", etc / "letsencrypt" / "archive", live):
        folder.mkdir(parents=True)
    for kind in ("pem", "key"):
        (etc / "ssl" / f"packages.example.{kind}").write_text("of a copy")
    renewed(live, 1)
    ended = run_command(["bash", "-c", block("ln -sf /etc/letsencrypt/live").replace("/etc/", f"{etc}/")])
    assert (ended.returncode, ended.stdout) == (0, "")
    renewed(live, 2)
    assert (etc / "ssl" / "packages.example.pem").read_text() == "fullchain 2"
    assert (etc / "ssl" / "packages.example.key").read_text() == "privkey 2"
    hook, = (etc / "letsencrypt" / "renewal-hooks" / "deploy").iterdir()
    assert run_command([str(hook)], PATH=path).returncode == 0 and os.access(hook, os.X_OK)
    assert called(f"{tmp_path}/bin") == "systemctl reload nginx\n"


@pytest.mark.parametrize("before", ["", "of before\n"])
@pytest.mark.parametrize("ends", [0, 1])
def test_nginx_goes_on_with_what_it_had_if_it_refuses_the_index(tmp_path, before, ends):
    """As without a certificate: else no site of this nginx came up at its next start."""
    etc, path = tmp_path / "etc/nginx", stand_ins(f"{tmp_path}/bin", systemctl="", nginx=f"exit {ends}")
    write_below(tmp_path, "usr/share/package-index/packages.conf", "server_name packages.example;\n")
    write_below(etc, "conf.d/packages.conf", before)
    if not before:
        os.remove(etc / "conf.d/packages.conf")
    text = block("host=packages.example").replace("host=packages.example", "host=pypi.example.org")
    for _ in range(2):
        run_command(["bash", "-c", text.replace("/etc/", f"{tmp_path}/etc/").replace("/usr/", f"{tmp_path}/usr/")],
                    PATH=path)
        made = "server_name pypi.example.org;\n"
        assert (etc / "conf.d/packages.conf").read_text() == (before if ends else made)
        assert not ends or (etc / "packages.new").read_text() == made
    assert os.listdir(etc / "conf.d") == ["packages.conf"]
    assert ("systemctl reload-or-restart nginx" in called(f"{tmp_path}/bin")) == (ends == 0)


@pytest.mark.parametrize("starts, file", [("cp /usr/share/package-index/legacy", "legacy"),
                                          ("mkdir -p /etc/systemd/system/index-site", "site")])
def test_nginx_goes_on_without_an_addition_that_it_refuses(tmp_path, starts, file):
    path = stand_ins(f"{tmp_path}/bin", systemctl="", nginx="exit 1")
    write_below(tmp_path, f"usr/share/package-index/{file}.conf", "")
    (tmp_path / "etc/nginx/index/server.d").mkdir(parents=True)
    run_command(["bash", "-c", block(starts).replace("/etc/", f"{tmp_path}/etc/").replace("/usr/", f"{tmp_path}/usr/")],
                PATH=path)
    assert os.listdir(tmp_path / "etc/nginx/index/server.d") == []
    assert "reload nginx" not in called(f"{tmp_path}/bin") and "enable --now" in called(f"{tmp_path}/bin")


def test_a_certificate_to_try_with_is_made_where_none_is(tmp_path):
    want_command("openssl", "openssl")
    text = block("name=packages.example").replace("/etc/ssl", str(tmp_path))
    assert run_command(["bash", "-c", text]).returncode == 0
    made = tmp_path / "packages.example.pem"
    told = run_command(["openssl", "x509", "-in", str(made), "-noout", "-ext", "subjectAltName,keyUsage"]).stdout
    assert "DNS:packages.example" in told and "Certificate Sign" in told
    assert (tmp_path / "packages.example.key").stat().st_mode & 0o777 == 0o600
    made.write_text("of an authority")
    assert run_command(["bash", "-c", text]).returncode == 0 and made.read_text() == "of an authority"


def test_what_a_block_calls_comes_with_the_package():
    """A new Debian has none of these, and a block that lacks one ends in its midst."""
    recommended, = re.findall("^Recommends: (.*)$", Path(f"{SERVER}/debian/control").read_text(), re.M)
    blocks = "".join(it for name in PAGES for it in re.findall("^```sh\n(.*?)^```$", page(name), re.M | re.S))
    called_there = {it for it in ("curl", "nginx", "openssl", "sqlite3") if re.search(rf"(?<![\w/.-]){it} ", blocks)}
    # and what no block calls: it names callers, and rotates their log
    others = {"libnginx-mod-http-js", "logrotate"}
    assert called_there | others == {it.split()[0] for it in recommended.split(", ")}


def test_the_page_names_the_number_of_copies_that_the_unit_keeps():
    """Whoever makes copies more often has to raise it: else a mistake of yesterday is in each copy."""
    command, = re.findall("^ExecStart=.*index-backup .*", unit("index-backup.service"), re.M)
    assert f"raise the {command.split()[-1]} in `index-backup.service`" in page("RECOVERY")


def test_an_upgrade_of_several_indexes_looks_at_copies_of_these():
    """The one that they came from still lies where its backup finds it."""
    before = page("INSTALL").partition(block("new="))[0].splitlines()[-3]
    assert "`index-backup@8081` and `/var/backups/index/8081`" in before


def test_nginx_on_a_machine_of_its_own_is_to_forget_what_was_deleted_and_to_mind_its_certificate():
    assert "systemctl enable --now index-certificate.timer index-uncache-follow.service" in page("TWO-MACHINES")
