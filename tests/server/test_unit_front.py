"""How nginx is connected to through TLS, and which certificate is believed."""
import socket
import ssl
import types

import pytest
from support.library import front
from support.planted import catches
from support.unit import raises


@pytest.fixture
def nginx():
    """What listens at the place of nginx."""
    with socket.create_server((front.LOOPBACK, 0)) as server:
        yield server


def test_a_connection_through_tls_asks_for_the_name(nginx):
    trust = types.SimpleNamespace(wrap_socket=lambda plain, server_hostname: (plain, server_hostname))
    plain, name = front.connect(front.Front("packages.test", nginx.getsockname()[1]), trust, 9)
    with plain:
        assert (name, plain.getpeername(), plain.gettimeout()) == ("packages.test", nginx.getsockname(), 9)


def test_a_connection_that_gets_no_tls_is_closed(nginx):
    trust = types.SimpleNamespace(wrap_socket=raises(ssl.SSLError("no TLS")))
    with pytest.raises(ssl.SSLError):
        front.connect(front.Front("packages.test", nginx.getsockname()[1]), trust, 9)
    peer, _ = nginx.accept()
    with peer:
        peer.settimeout(9)
        assert peer.recv(1) == b""


def test_a_certificate_is_believed_by_itself():
    """Python has a name for this from 3.10 on."""
    assert front.PARTIAL_CHAIN == ssl.VERIFY_X509_PARTIAL_CHAIN


@catches("server/lib/package_index/front.py", "except (OSError, http.client.HTTPException) as end:",
         "except OSError as end:", case="garbage")
@pytest.mark.parametrize("answer, fault", [
    (b"HTTP/1.1 200 OK\r\n\r\n", ""), (b"HTTP/1.1 502 x\r\n\r\n", "nginx answers https://packages.test/health by 502"),
    (b"garbage\r\n\r\n", "BadStatusLine"), (b"", "RemoteDisconnected")], ids=["well", "fails", "garbage", "nothing"])
def test_what_is_no_answer_of_nginx_is_a_fault(monkeypatch, answer, fault):
    """Over a plain connection in the place of TLS."""
    ours, peer = socket.socketpair()
    monkeypatch.setattr(front, "connect", lambda *given: ours)
    with peer:
        peer.sendall(answer)
        peer.shutdown(socket.SHUT_WR)
        found = front.fault_of_answer(front.Front("packages.test", 443), 9)
    assert fault in found and bool(fault) == bool(found)
