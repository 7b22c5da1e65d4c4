"""Names of projects, releases and files (NAMES), and the other values (REQUESTS, 'Values')."""
import hashlib
import re

PROJECT_NAME = "[A-Za-z0-9]([A-Za-z0-9._-]{0,126}[A-Za-z0-9])?"
VERSION_TEXT = "[A-Za-z0-9]([A-Za-z0-9._+!]{0,62}[A-Za-z0-9])?"
BUILD_TAG = "[0-9][A-Za-z0-9._]*"
TAG = "[A-Za-z0-9._]+"
MOST_TEXT = 512


def bytes_of(text):
    return text.encode("utf-8", "surrogateescape")


def sha256(data):
    return hashlib.sha256(data).hexdigest()


EMPTY_DIGEST = sha256(b"")


def read_name(text):
    """The normal form of a project name; None if the text is not one (PEP 508, PEP 503)."""
    if not re.fullmatch(PROJECT_NAME, text):
        return None
    return re.sub("[-_.]+", "-", text).lower()


def read_release(text):
    """The release that a version text names; None if the text is not one."""
    return text.lower() if re.fullmatch(VERSION_TEXT, text) else None


def read_file_name(text):
    """The project and the release that a file name decides; None if it names neither a wheel nor a source archive."""
    if len(text) > 255:
        return None
    if text.endswith(".whl"):
        return read_wheel(text[:-len(".whl")])
    if text.endswith(".tar.gz"):
        return read_archive(text[:-len(".tar.gz")])
    return None


def read_wheel(stem):
    """distribution - version [- build] - python - abi - platform (PEP 427)."""
    distribution, *rest = stem.split("-")
    if len(rest) == 5 and re.fullmatch(BUILD_TAG, rest[1]):
        del rest[1]
    if len(rest) != 4 or not all(re.fullmatch(TAG, tag) for tag in rest[1:]):
        return None
    return both(read_name(distribution), read_release(rest[0]))


def read_archive(stem):
    """name - version, cut at the last hyphen (PEP 625)."""
    name, hyphen, version = stem.rpartition("-")
    return both(read_name(name), read_release(version)) if hyphen else None


def both(project, release):
    return (project, release) if project is not None and release is not None else None


def is_user_id(text):
    return bool(re.fullmatch("[a-z0-9]{1,32}", text))


def is_digest(text):
    return bool(re.fullmatch("[0-9a-f]{64}", text))


def is_text(text):
    """0 to 512 bytes of UTF-8 without control characters."""
    is_utf8 = not re.search("[\ud800-\udfff]", text)
    return is_utf8 and len(bytes_of(text)) <= MOST_TEXT and not re.search("[\x00-\x1f\x7f-\x9f]", text)
