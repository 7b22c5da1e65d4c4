"""Where the index is and who asks it: the environment, a profile or ~/.netrc."""
from __future__ import annotations

import configparser
import ipaddress
import netrc
import os
import re
import urllib.parse
from dataclasses import dataclass
from typing import Dict, Mapping, Optional, Tuple

from indexctl.ends import WRONG, Stop
from indexctl.names import is_text

PROFILES = "~/.config/indexctl.ini"
KEYS = ("url", "token-file", "ca", "record", "user", "password-file")
TOKEN = "[!-~]([ -~]*[!-~])?"
# of a token or a password, in characters: a file that has more is something else
MOST_SECRET = 4_096


@dataclass(frozen=True)
class Setting:
    """Where the index is and who asks it. `place` says where that was read, and `source` where the token was."""
    place: str
    url: str
    token: str
    source: str
    ca: str
    record: str
    basic: str


def read_secret(path: str, what: str) -> str:
    """The one line of a file that nobody else may read."""
    path = os.path.expanduser(path)
    try:
        # an editor of Windows may put a mark before the text
        with open(path, encoding="utf-8-sig") as kept:
            mode, text = os.fstat(kept.fileno()).st_mode, kept.read(MOST_SECRET + 1).strip()
    except (OSError, UnicodeDecodeError) as end:
        raise Stop(WRONG, f"{what}: {path} can't be read: {getattr(end, 'strerror', end)}") from end
    if os.name == "nt":
        # the modes of Windows say nothing of other users
        mode = 0
    # systemd gives a credential to one user, by a rule that its mode does not show
    credentials = os.environ.get("CREDENTIALS_DIRECTORY")
    if mode & 0o077 and not (credentials and os.path.dirname(os.path.abspath(path)) == credentials):
        raise Stop(WRONG, f"{what}: other users may read {path}. Use `chmod 600 {path}`, and ask for another token if "
                          "they did.")
    if len(text) > MOST_SECRET or not re.fullmatch(TOKEN, text):
        raise Stop(WRONG, f"{what}: {path} does not hold one line of plain characters.")
    return text


def netrc_of(host: str) -> Tuple[str, str, str]:
    """The login, the account and the password of this host in ~/.netrc, or three empty texts."""
    try:
        found = netrc.netrc().hosts.get(host)
    except (FileNotFoundError, NotADirectoryError):
        found = None
    except netrc.NetrcParseError as end:
        # a word that is not understood may be a part of a password
        why = re.sub(" token .*", f" token in line {end.lineno}", end.msg)
        raise Stop(WRONG, f"~/.netrc can't be used: {why}") from end
    except (OSError, UnicodeDecodeError) as end:
        raise Stop(WRONG, f"~/.netrc can't be used: {end}") from end
    login, account, password = found or ("", "", "")
    return login or "", account or "", password or ""


def is_loopback(host: str) -> bool:
    try:
        return host == "localhost" or ipaddress.ip_address(host).is_loopback
    except ValueError:
        return False


def is_host(name: str) -> bool:
    """Whether a host may have this name: none has a space, or a label that is empty or too long."""
    try:
        return bool(name.encode("idna")) and not re.search(r"[\s\\]", name)
    except UnicodeError:
        return False


def without_password(url: str) -> str:
    """An address as it may be printed: a password in it would end up in a pipeline's log."""
    before, _, rest = url.rpartition("@")
    return f"{before.partition('//')[0]}//..@{rest}" if "//" in before else rest


def parts_of_url(url: str, what: str) -> urllib.parse.SplitResult:
    """The parts of the address of an index. A token is a password, so only loopback is asked without TLS."""
    shown = without_password(url)
    try:
        parts = urllib.parse.urlsplit(url)
        _ = parts.port
    except ValueError as end:
        raise Stop(WRONG, f"{what} is {shown!r}. Write an address such as https://packages.example.") from end
    is_whole = parts.scheme in ("http", "https") and is_host(parts.hostname or "") and is_text(url)
    # (a path with `@` has a part of a password)
    if not is_whole or not parts.hostname or parts.query or parts.fragment or "@" in parts.path:
        raise Stop(WRONG, f"{what} is {shown!r}, not an address such as https://packages.example, without a path.")
    if parts.path.strip("/"):
        raise Stop(WRONG, f"{what} is {shown!r}. Leave out {parts.path}, which is for another client: the address of "
                          f"the index is {plain_url(parts)}.")
    if parts.scheme == "http" and not is_loopback(parts.hostname):
        raise Stop(WRONG, f"{what} has to be https: a token is a password, and would cross the network in the clear.")
    return parts


def plain_url(parts: urllib.parse.SplitResult) -> str:
    """The address of an index, without a password and without a slash at its end."""
    name = parts.hostname or ""
    host = f"[{name}]" if ":" in name else name
    return f"{parts.scheme}://{host}{f':{parts.port}' if parts.port else ''}"


def basic_of(parts: urllib.parse.SplitResult, values: Mapping[str, str], login: str, password: str) -> str:
    """The user and the password that the proxy asks for, or an empty text."""
    if parts.username is not None:
        return f"{urllib.parse.unquote(parts.username)}:{urllib.parse.unquote(parts.password or '')}"
    if values.get("user"):
        secret = read_secret(values["password-file"], "password-file") if values.get("password-file") else ""
        return f"{values['user']}:{secret}"
    return f"{login}:{password}" if login and login != "__token__" else ""


def setting_from(place: str, url_name: str, values: Mapping[str, str], token: str, source: str) -> Setting:
    """The setting that these values make, with what ~/.netrc adds for the host."""
    parts = parts_of_url(values["url"], url_name)
    login, account, password = netrc_of(parts.hostname or "")
    basic = basic_of(parts, values, login, password)
    if not token:
        token, source = (password if login == "__token__" else account), "~/.netrc"
    if token and not re.fullmatch(TOKEN, token):
        raise Stop(WRONG, f"{source} has characters that no token has. Write one line of plain characters there.")
    ca, record = (os.path.expanduser(values.get(key) or "") for key in ("ca", "record"))
    return Setting(place, plain_url(parts), token, source if token else "", ca, record, basic)


def setting_of_environment() -> Setting:
    given = {key: os.environ.get(f"INDEX_{key.upper()}", "") for key in ("url", "ca", "record", "token", "token_file")}
    token, source = given["token"].strip(), "INDEX_TOKEN"
    if given["token_file"]:
        token, source = read_secret(given["token_file"], "INDEX_TOKEN_FILE"), "INDEX_TOKEN_FILE"
    return setting_from("the environment", "INDEX_URL", given, token, source)


def read_profiles() -> Dict[str, Dict[str, str]]:
    """The profiles of ~/.config/indexctl.ini by name."""
    found = configparser.ConfigParser(interpolation=None, default_section="")
    try:
        with open(os.path.expanduser(PROFILES), encoding="utf-8-sig") as kept:
            found.read_file(kept)
    except (FileNotFoundError, NotADirectoryError):
        return {}
    except (configparser.Error, UnicodeDecodeError, OSError) as end:
        raise Stop(WRONG, f"{PROFILES} can't be read: {' '.join(str(end).split())}") from end
    for name in found.sections():
        for key in found[name]:
            if key == "token":
                raise Stop(WRONG, f"{PROFILES}, {name}: a token has no place here. Put it into a file of mode 0600, "
                                  "and name that at token-file.")
            if key not in KEYS:
                raise Stop(WRONG, f"{PROFILES}, {name}: {key!r} is not one of {', '.join(KEYS)}.")
    return {name: dict(found[name]) for name in found.sections()}


def setting_of_profile(name: Optional[str]) -> Setting:
    profiles = read_profiles()
    if name and not profiles:
        raise Stop(WRONG, f"There is no profile {name!r}: {PROFILES} is not there, or has none. `indexctl profile "
                          "--help` shows what it has.")
    if not name:
        name = "default" if "default" in profiles or len(profiles) != 1 else list(profiles)[0]
    values = profiles.get(name)
    if values is None and not profiles:
        raise Stop(WRONG, f"No index is named. Set INDEX_URL, or write a profile into {PROFILES}, as "
                          "`indexctl profile --help` says.")
    if not values or not values.get("url"):
        raise Stop(WRONG, f"{PROFILES} has no profile {name!r} with a url. It has: {', '.join(profiles) or 'none'}.")
    token = read_secret(values["token-file"], "token-file") if values.get("token-file") else ""
    return setting_from(f"the profile {name}", f"url of {name}", values, token, values.get("token-file", ""))


def find_setting(profile: Optional[str]) -> Setting:
    """--profile, else INDEX_URL, else a profile. A token is never sent to an index that another place names."""
    if profile:
        return setting_of_profile(profile)
    if os.environ.get("INDEX_URL"):
        return setting_of_environment()
    for name in ("INDEX_TOKEN_FILE", "INDEX_TOKEN", "INDEX_CA", "INDEX_RECORD"):
        if os.environ.get(name):
            raise Stop(WRONG, f"{name} is set, and INDEX_URL is not: say which index it is for. To use a profile, "
                              f"unset {name}.")
    return setting_of_profile(os.environ.get("INDEX_PROFILE"))
