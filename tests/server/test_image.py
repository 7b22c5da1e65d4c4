"""The container image: what tools/image makes, as a pod that is killed, stopped, backed up and restored.

`--rounds N` is how often the container of the index is killed."""
from __future__ import annotations

import fcntl
import filecmp
import json
import os
import sys
import tarfile
import urllib.request
from collections.abc import Iterator

import pytest
from support.needed import want_command
from support.packages import make_wheel, wheel_files
from support.places import TOP
from support.planted import catches
from support.running import run_command
from support.server.expected import assert_ends
from support.server.packaged import make_package
from support.server.pasted import block
from support.server.podded import CONTAINERS, Pod, until
from support.serving import ACCEPTED

pytestmark = [pytest.mark.slow, pytest.mark.xdist_group("image"), pytest.mark.timeout(3_600)]
PATIENCE = 1_800
DEBIAN = "http://deb.debian.org/debian/dists/bookworm/InRelease"
WHEEL = "frob-1.0-py3-none-any.whl"
KILLS = 5
# as the blocks begin that run a command on the disks of the pod
AS_A_JOB = "podman run --rm --network none --read-only"


def want_debian() -> None:
    """Skips the test if Debian's packages can't be had."""
    try:
        with urllib.request.urlopen(DEBIAN, timeout=30):
            pass
    except OSError:
        pytest.skip("this machine reaches no packages of Debian")


def make_image(package: str, folder: str, **setting: str):
    words = [sys.executable, f"{TOP}/tools/image", "--package", package, "--out", folder]
    return run_command(words, PATIENCE, **setting)


@pytest.fixture(scope="session")
def package(program: str, tmp_path_factory: pytest.TempPathFactory) -> str:
    for command, name in (("dh", "debhelper"), ("dpkg-buildpackage", "dpkg-dev"), ("help2man", "help2man"),
                          ("make", "make"), ("strip", "binutils"), ("mmdebstrap", "mmdebstrap"),
                          ("buildah", "buildah"), ("podman", "podman"), ("runc", "runc")):
        want_command(command, name)
    if os.geteuid():
        pytest.skip("only root makes an image")
    want_debian()
    folder = str(tmp_path_factory.mktemp("image"))
    assert_ends(make_package(program, folder, "--unproved"), 0)
    return f"{folder}/package-index_1_amd64.deb"


@pytest.fixture(scope="session")
def archive(package: str) -> str:
    folder = os.path.dirname(package)
    ended = make_image(package, folder)
    made = f"{folder}/package-index_1_amd64.oci.tar"
    assert ended.returncode == 0 and ended.stdout.splitlines()[-1] == made, ended.stdout
    return made


@pytest.fixture(scope="session")
def pod(archive: str, tmp_path_factory: pytest.TempPathFactory) -> Iterator[Pod]:
    """The pod with an index, made by the three commands of the page, which answers."""
    made = Pod(str(tmp_path_factory.mktemp("pod")))
    os.symlink(archive, f"{made.folder}/{os.path.basename(archive)}")
    try:
        ended = made.pasted(block("podman load --input package-index_*"))
        assert ended.returncode == 0, ended.stdout
        made.token = ended.stdout.splitlines()[-1]
        made.trust()
        until(made.answers)
        yield made
    finally:
        made.end()


@catches("tools/image", '"--timestamp", str(moment), made, IMAGE', "made, IMAGE")
def test_an_image_made_again_has_the_same_bytes(archive, package, tmp_path):
    ended = make_image(package, str(tmp_path), TZ="Asia/Tokyo", HOME=str(tmp_path), COLUMNS="40")
    assert ended.returncode == 0, ended.stdout
    assert filecmp.cmp(archive, f"{tmp_path}/package-index_1_amd64.oci.tar", shallow=False)


@catches("tools/image", 'USER = "10001:10001"', 'USER = "0:0"')
def test_the_archive_is_an_image_of_one_layer_with_its_packages_beside_it(archive, looked):
    with tarfile.open(archive) as kept:
        def read(name):
            return json.load(kept.extractfile(name))
        manifest = read("blobs/" + read("index.json")["manifests"][0]["digest"].replace(":", "/"))
        config = read("blobs/" + manifest["config"]["digest"].replace(":", "/"))
    looked(len(manifest["layers"]) == 1, manifest)
    looked(config["config"]["User"] == "10001:10001" and config["config"]["Entrypoint"][0] == "/usr/bin/tini", config)
    with open(archive.replace(".oci.tar", ".packages.txt"), encoding="utf-8") as kept:
        names = {line.split()[0] for line in kept}
    looked({"package-index", "nginx-light", "tini", "libc6"} <= names, names)


@pytest.mark.parametrize("container", CONTAINERS)
def test_a_container_may_do_nothing_but_its_work(pod, looked, container):
    """Another user than root, no capability, and a root that nobody can write to."""
    said = pod.podman("exec", container, "cat", "/proc/1/status").stdout
    for line in ("Uid:\t10001\t10001\t10001\t10001", "CapBnd:\t0000000000000000", "CapEff:\t0000000000000000",
                 "NoNewPrivs:\t1"):
        looked(line in said, line, said)
    ended = pod.podman("exec", container, "touch", "/x")
    looked(ended.returncode and "Read-only file system" in ended.stdout, ended.stdout)
    looked(pod.podman("exec", container, "cat", "/proc/1/cmdline").stdout.startswith("/usr/bin/tini\0"))


def test_pip_installs_what_was_uploaded(pod, tmp_path):
    make_wheel(tmp_path / WHEEL, wheel_files("frob", "1.0", 'VERSION = "1.0"\n'))
    assert pod.claim("frob") and pod.upload("frob", WHEEL, (tmp_path / WHEEL).read_bytes())
    ended = run_command([sys.executable, "-m", "pip", "install", "--isolated", "--no-cache-dir", "--cert",
                         f"{pod.folder}/pem", "--index-url", f"https://localhost:{pod.port}/simple/", "--target",
                         str(tmp_path / "to"), "frob"], 300)
    assert "Successfully installed frob-1.0" in ended.stdout, ended.stdout


@catches("server/bin/index-health", 'connection.request("GET", "/names/x")', 'connection.request("GET", "/nowhere")')
def test_a_probe_finds_the_index_and_nginx_well(pod, looked):
    for container, words in (("index-index", ["--patience", "60"]),
                             ("index-nginx", ["--front-only", "--front", "/run/nginx/packages.conf"])):
        ended = pod.podman("exec", container, "index-health", *words)
        looked(ended.returncode == 0, ended.stdout)


def test_killed_again_and_again_it_has_all_that_it_acknowledged(pod, pytestconfig, looked):
    assert pod.claim("spam")
    kept = {}
    for at in range(pytestconfig.option.rounds or KILLS):
        for part in range(3):
            name, body = f"spam-{at}.{part}.tar.gz", os.urandom(1_000)
            if pod.upload("spam", name, body):
                kept[name] = body
        pod.kill()
        until(pod.answers)
    # past nginx's cache, which has kept none of them
    for name, body in kept.items():
        looked(pod.ask("GET", f"/files/spam/{name}") == (200, body), name)
    assert kept


def test_a_copy_is_restored_as_the_page_says_and_what_it_forgets_is_listed(pod, looked):
    assert pod.claim("egg") and pod.upload("egg", "egg-1.tar.gz", b"abc")
    ended = pod.pasted(block(AS_A_JOB, "index-backup /var"))
    looked(ended.returncode == 0 and "tested in" in ended.stdout, ended.stdout)
    assert pod.upload("egg", "egg-2.tar.gz", b"def")
    assert pod.ask("GET", "/files/egg/egg-2.tar.gz") == (200, b"def")
    restore = block("podman pod stop --time 60 index")
    ended = pod.pasted(restore.partition("\n")[2])
    looked(ended.returncode == 1 and "end that first" in ended.stdout, "while it serves", ended.stdout)
    ended = pod.pasted(restore)
    looked(ended.returncode == 0 and "start the index now" in ended.stdout, ended.stdout)
    until(pod.answers)
    changes = pod.podman("exec", "index-index", "sh", "-c", "cat /var/lib/index/before-*/changes").stdout
    looked("/files/egg/egg-2.tar.gz" in changes, changes)
    looked(pod.ask("GET", "/files/egg/egg-1.tar.gz") == (200, b"abc"), "what the copy has")
    looked(pod.ask("GET", "/files/egg/egg-2.tar.gz")[0] == 404, "what came after it, in nginx's cache too")


@catches("docs/operators/CONTAINER.md", "localhost/package-index index-punch ", "localhost/package-index true ")
def test_the_bytes_of_a_deleted_file_leave_the_disk_as_the_page_says(pod, looked):
    body, last = os.urandom(100_000), os.urandom(1_000)

    def is_there() -> bool:
        with open(f"{pod.disk()}/index.db-volume", "rb") as kept:
            return body in kept.read()
    assert pod.claim("sand") and pod.upload("sand", "sand-1.tar.gz", body) and pod.upload("sand", "sand-2.tar.gz", last)
    assert is_there()
    assert pod.ask("POST", "/requests", b'{"do":"delete","file":"sand-1.tar.gz"}') == (200, ACCEPTED)
    ended = pod.pasted(block(AS_A_JOB, "index-punch"))
    looked(ended.returncode == 0 and not is_there(), ended.stdout)
    looked(pod.ask("GET", "/files/sand/sand-2.tar.gz") == (200, last))


@catches("server/container/start", '[ ! -e "$it" ] || flock $data true', "flock $data true")
def test_a_container_starts_while_a_backup_is_made(pod):
    """Which locks the folder of the index."""
    folder = os.open(pod.disk(), os.O_RDONLY)
    try:
        fcntl.flock(folder, fcntl.LOCK_EX)
        pod.kill()
        until(pod.answers)
    finally:
        os.close(folder)


@catches("tools/image", '["/usr/bin/tini","--","/usr/bin/index-container"]', '["/usr/bin/index-container"]')
def test_a_container_that_is_stopped_ends_by_sigterm_and_the_next_pod_has_the_same_disks(pod, looked):
    """tini passes the signal on. Without it podman would wait two minutes, and then send SIGKILL."""
    assert pod.claim("ham")
    pod.podman("pod", "stop", "--time", "120", "index")
    ends = [pod.podman("inspect", "--format", "{{.State.ExitCode}}", it).stdout.split()[-1] for it in CONTAINERS]
    looked(ends == ["143", "0", "143"], ends)
    ended = pod.pasted(block("podman load --input package-index_NEW").splitlines()[-1])
    assert ended.returncode == 0, ended.stdout
    until(pod.answers)
    status, body = pod.ask("GET", "/names/ham")
    looked(status == 200 and b'"state":"held"' in body, body)
