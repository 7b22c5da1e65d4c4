"""nginx in front of an index, as a client sees it: whether it answers through TLS, and with which certificate."""
from __future__ import annotations

import http.client
import re
import socket
import ssl
import time
from typing import NamedTuple, Optional

from package_index.ends import Refused

LOOPBACK = "127.0.0.1"
# a server that asks its readers for a password answers 401 without one, and 507 once a look found little room
ANSWERS = 200, 401, 507
# OpenSSL's X509_V_FLAG_PARTIAL_CHAIN: a certificate is believed by itself
PARTIAL_CHAIN = ssl.VerifyFlags(0x80000)


class Front(NamedTuple):
    """The name for which nginx answers, its port, and its address: this machine's, if no other is given."""
    host: str
    port: int
    address: str = LOOPBACK


def front_of(conf: str) -> Optional[Front]:
    """What a file such as packages.conf serves through TLS; None if it is not there, or serves without. One that can't
    be read is an OSError, and one that names no server, as one that a full disk cut off, is refused."""
    try:
        with open(conf, encoding="utf-8", errors="replace") as kept:
            text = kept.read()
    except FileNotFoundError:
        return None
    host = re.search(r"^\s*server_name\s+([^\s;]+)", text, re.M)
    port = re.search(r"^\s*listen\s+(?:\S*:)?(\d+)\s+ssl\b", text, re.M)
    if not host:
        raise Refused(f"{conf} names no server: is it whole?")
    return Front(host[1], int(port[1])) if port else None


def connect(front: Front, trust: ssl.SSLContext, patience: float) -> ssl.SSLSocket:
    plain = socket.create_connection((front.address, front.port), timeout=patience)
    try:
        return trust.wrap_socket(plain, server_hostname=front.host)
    except OSError:
        plain.close()
        raise


def believing(certificate: Optional[bytes] = None) -> ssl.SSLContext:
    """What believes this certificate, whoever signed it, or any if none is given."""
    trust = ssl.SSLContext(ssl.PROTOCOL_TLS_CLIENT)
    if certificate is None:
        trust.check_hostname, trust.verify_mode = False, ssl.CERT_NONE
    else:
        trust.load_verify_locations(cadata=certificate)
        trust.verify_flags |= PARTIAL_CHAIN
    return trust


def fault_of_answer(front: Front, patience: float) -> str:
    """What is wrong with nginx's answer to a look at the index's health, or nothing."""
    connection = http.client.HTTPConnection(front.host)
    try:
        connection.sock = connect(front, believing(), patience)
        connection.request("GET", "/health")
        status = connection.getresponse().status
    except (OSError, http.client.HTTPException) as end:
        return f"nginx does not answer for {front.host} at port {front.port}: {end!r}"
    finally:
        connection.close()
    return "" if status in ANSWERS else f"nginx answers https://{front.host}/health by {status}"


def fault_of_certificate(front: Front, patience: float, days: float) -> str:
    """What is wrong with the certificate that nginx shows for its name, or nothing: another name, or an end within so
    many days. Who signed it is not asked, since that may be an authority of your own."""
    with connect(front, believing(), patience) as shown:
        certificate = shown.getpeercert(binary_form=True) or b""
    try:
        with connect(front, believing(certificate), patience) as shown:
            named = shown.getpeercert() or {}
    except ssl.SSLCertVerificationError as refused:
        return f"nginx's certificate for {front.host}: {refused.verify_message}"
    end = str(named["notAfter"])
    left = (ssl.cert_time_to_seconds(end) - time.time()) / 86400
    return f"nginx's certificate for {front.host} ends in {left:.0f} days, {end}" if left < days else ""


def fault_of_chain(front: Front, patience: float, authority: str) -> str:
    """Whether a client that trusts these authorities alone believes nginx: it does not if nginx sends the certificate
    without those that lead to them."""
    trust = ssl.create_default_context(cafile=authority)
    try:
        connect(front, trust, patience).close()
    except ssl.SSLCertVerificationError as refused:
        return (f"nginx's certificate for {front.host} does not lead to {authority}: {refused.verify_message}. Has "
                "ssl_certificate the whole chain (fullchain.pem)?")
    return ""
