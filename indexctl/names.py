"""Names that a person typed: checked before anything is asked for. The grammar is that of `package_index.names`."""
from __future__ import annotations

import hashlib
import re

from indexctl.ends import WRONG, Stop
from package_index.names import is_name, is_user, read_file_name

DIGEST = re.compile("[0-9a-f]{64}")


def sha256(text: str) -> str:
    return hashlib.sha256(text.encode()).hexdigest()


def file_named(text: str) -> str:
    """The name of a file, of which the path on a disk or the address on an index may have been typed."""
    return re.split(r"[/\\]", text)[-1]


def project_of(file: str) -> str:
    """The project of a file name, in its normal form."""
    spelled = read_file_name(file)
    if not spelled:
        raise Stop(WRONG, f"{file!r} is not the name of a wheel or of a .tar.gz.")
    return spelled.project


def check_names(*names: str) -> None:
    """Stops unless each is a project's name, so that a slip is found before anything is asked for."""
    for name in names:
        if not is_name(name):
            raise Stop(WRONG, f"{name!r} is not a project's name: letters, digits, `.`, `_` and `-`, at most 128, with "
                              "a letter or digit at both ends.")


def is_text(text: str) -> bool:
    """Whether a text has whole characters alone. JSON and the environment may have halves, which no coding takes."""
    return text.isascii() or not any("\ud800" <= it <= "\udfff" for it in text)


def check_texts(*texts: str) -> None:
    """Stops unless each is text: Python keeps bytes that are none by the locale, and no index takes them."""
    for text in texts:
        if not is_text(text):
            raise Stop(WRONG, f"{text!r} has bytes that are no text in the coding of your locale. Write it in that, or "
                              "set LANG, as to C.UTF-8.")


def check_users(*users: str) -> None:
    for user in users:
        if not is_user(user):
            raise Stop(WRONG, f"{user!r} is not a user id: 1 to 32 of the letters a to z and the digits 0 to 9.")


def is_noncharacter(character: str) -> bool:
    """Whether Unicode never gives this code point to a character: 66 are so."""
    number = ord(character)
    return number & 0xFFFE == 0xFFFE or 0xFDD0 <= number <= 0xFDEF
