"""A pipeline's identity in place of a token, on a machine that systemd started, by the blocks of the page."""
from __future__ import annotations

import json
from pathlib import Path

import pytest
from support.server.expected import assert_ends
from support.server.issuer import Issuer, claims
from support.server.pasted import block
from support.server.waits import wait_for

pytestmark = [pytest.mark.slow, pytest.mark.by_turns("machine"), pytest.mark.xdist_group("machine"),
              pytest.mark.timeout(900)]
URL, KEYS = "https://gitlab.example.org", "/etc/nginx/index/server.d/keys.conf"
SETTING = "export office=$(cat office) INDEX_CA=/etc/ssl/packages.example.pem\n"
ON = block("mkdir -p /etc/systemd/system/index-legacy-upload.service.d")
AGAIN = ON.splitlines()[-1]
# the issuers' keys come from the nginx of this machine, which is in no network, and believed by its own certificate
HERE = """cat > /etc/nginx/index/server.d/keys.conf << 'END'
location = /gitlab.json { alias /root/keys/gitlab.json; }
location = /github.json { alias /root/keys/github.json; }
END
sed -i -e 's,^keys = .*gitlab.*,keys = https://packages.example/gitlab.json,' \\
    -e 's,^keys = .*github.*,keys = https://packages.example/github.json,' /etc/package-index/publishers.ini
mkdir -p /etc/systemd/system/index-publishers.service.d
printf '[Service]\\nEnvironment=SSL_CERT_FILE=/etc/ssl/packages.example.pem\\n' \\
    > /etc/systemd/system/index-publishers.service.d/authority.conf
chmod 711 /root; systemctl reload nginx"""
OWN = """curl -sf -H "X-Index-Token: $(cat /etc/package-index/tokens/frobci)" -d '{"do":"claim","name":"frob"}' \\
    http://127.0.0.1:8080/requests"""


def is_up(machine):
    """Once the service answers again that was restarted."""
    asked = "curl -sk -o /dev/null -w '%{http_code}' https://packages.example/legacy/"
    assert wait_for(lambda: machine.sh(asked).stdout == "405", 60)


def token(issuer, **more):
    return issuer.token(claims(iss=URL, **more))


def exchanged(machine, text):
    """The status and the reply of an exchange."""
    is_up(machine)
    asked = "curl -sk -w '\\n%{http_code}' https://packages.example/_/oidc/mint-token -d"
    body, _, status = machine.sh(f"{asked} '{json.dumps({'token': text})}'").stdout.rpartition("\n")
    return int(status), json.loads(body)


def uploaded(machine, password, file, project="frob"):
    form = f"-F :action=file_upload -F protocol_version=1 -F name={project} -F 'content=@office;filename={file}'"
    is_up(machine)
    return machine.sh(f"curl -sk -u '__token__:{password}' {form} https://packages.example/legacy/").stdout


@pytest.fixture(scope="module")
def issuer():
    return Issuer()


@pytest.fixture(scope="module")
def taught(machine, issuer, tmp_path_factory):
    """The machine once the page turned the identity of pipelines on."""
    folder = tmp_path_factory.mktemp("keys")
    machine.sh("mkdir -p keys")
    for name, of in (("gitlab", issuer), ("github", Issuer())):
        Path(f"{folder}/{name}").write_text(json.dumps(of.keys()))
        machine.put(f"/root/keys/{name}.json", f"{folder}/{name}")
    assert_ends(machine.sh(block("cp /usr/share/package-index/legacy.conf")), 0)
    user = block("apt-get install --no-install-recommends python3-jwt").replace("install", "install --no-upgrade", 1)
    for _ in range(2):
        assert_ends(machine.sh(f"set -e\n{SETTING}{user}"), 0)
    assert_ends(machine.sh(f"set -e\n{block('cat > /etc/package-index/publishers.ini')}{HERE}"), 0)
    assert_ends(machine.sh(OWN), 0)
    for _ in range(2):
        assert_ends(machine.sh(f"set -e\n{ON}"), 0)
    return machine


def test_a_pipeline_uploads_without_a_token(taught, issuer):
    status, found = exchanged(taught, token(issuer))
    assert status == 200 and found["success"], found
    assert "frob-1.0.tar.gz uploaded" in uploaded(taught, found["token"], "frob-1.0.tar.gz")
    assert "may not upload kept" in uploaded(taught, found["token"], "kept-1.0.tar.gz", "kept")


def test_a_restart_forgets_no_token_and_no_password(taught, issuer):
    made = token(issuer)
    password = exchanged(taught, made)[1]["token"]
    assert_ends(taught.sh("systemctl restart index-legacy-upload"), 0)
    status, found = exchanged(taught, made)
    assert status == 422 and "exchanged already" in found["message"]
    assert "frob-1.1.tar.gz uploaded" in uploaded(taught, password, "frob-1.1.tar.gz")


def test_a_file_that_is_wrong_is_told_by_its_line_and_the_service_goes_on(taught, issuer):
    taught.sh("cp /etc/package-index/publishers.ini kept.ini; echo 'projekt = x' >> /etc/package-index/publishers.ini")
    ended = taught.sh(f"{AGAIN}; echo status $?; journalctl -u index-publishers -o cat -n 20")
    taught.sh(f"mv kept.ini /etc/package-index/publishers.ini; {AGAIN}")
    assert "status 1" in ended.stdout and "`projekt` is not known here" in ended.stdout, ended.stdout
    assert "publishers.ini, line " in ended.stdout and exchanged(taught, token(issuer))[0] == 200


def test_neither_tokens_nor_what_was_used_are_for_others(taught):
    seen = taught.sh("stat -L -c %a /etc/package-index/tokens /etc/package-index/tokens/frobci "
                     "/var/lib/private/index-legacy-upload /var/lib/index-publishers/gitlab.json")
    assert seen.stdout.split() == ["700", "600", "700", "644"]
    pid = taught.sh("systemctl show -p MainPID --value index-legacy-upload").stdout.strip()
    assert taught.sh(f"grep -z frobci /proc/{pid}/environ /proc/{pid}/cmdline").returncode == 1


def test_it_is_turned_off_again(taught, issuer):
    """The last of these: nothing is asked of it afterwards."""
    assert_ends(taught.sh(f"set -e\n{block('rm /etc/nginx/index/server.d/pipelines.conf')}"), 0)
    answered = taught.sh("curl -sk -o /dev/null -w '%{http_code}' -d x https://packages.example/_/oidc/mint-token")
    assert answered.stdout in ("404", "405")
    assert "No user has this token" in uploaded(taught, "pipeline-0", "frob-1.2.tar.gz")
    taught.sh(f"{block('rm /etc/nginx/index/server.d/legacy.conf')} rm -r {KEYS} /root/keys")
