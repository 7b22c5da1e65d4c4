"""A certificate that nobody vouches for is no index, and nothing is sent to it."""
from __future__ import annotations

import shutil

import pytest
from support.indexctl.control import Control, assert_ends
from support.planted import catches
from support.serving import Index

pytestmark = pytest.mark.xdist_group("certificate")


@pytest.fixture(scope="module")
def front(program, open_folder, certificate):
    """nginx with TLS in front of an index."""
    from support.server.front import Front
    with Index(program) as index, Front(f"{open_folder}/untrusted", certificate, index.port) as made:
        yield made


@catches("indexctl/transport.py", "ssl.create_default_context(cafile=setting.ca)",
         "ssl._create_unverified_context(cafile=setting.ca)")
def test_a_certificate_that_is_not_trusted_ends_the_run(folder, front):
    assert_ends(Control(folder, front.url).run("user", "add", "ann"), 2, "is not trusted", "INDEX_CA")


@catches("indexctl/transport.py", "ssl.create_default_context(cafile=setting.ca)",
         "ssl.create_default_context(cafile=None)")
def test_a_certificate_that_is_named_is_trusted(folder, front, certificate):
    assert_ends(Control(folder, front.url, certificate).run("who", "x"), 0, "free")


@catches("indexctl/settings.py", 'ca, record = (os.path.expanduser(values.get(key) or "") for key in ("ca", "record"))',
         'ca, record = (values.get(key) or "" for key in ("ca", "record"))')
def test_a_certificate_in_the_home_is_found(folder, front, certificate):
    by = Control(folder, front.url)
    shutil.copy(certificate, f"{by.home}/ca.pem")
    assert_ends(by.run("who", "x", INDEX_CA="~/ca.pem"), 0, "free")


def test_certificates_that_can_t_be_read_are_told(folder, front):
    ended = Control(folder, front.url).run("who", "x", INDEX_CA=f"{folder}/none.pem")
    assert_ends(ended, 2, "none.pem can't be read")
