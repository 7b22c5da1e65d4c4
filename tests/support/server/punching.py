"""A pair that SQLite makes, and its copies, for index-punch without the program."""
import os
import shutil

from support.library import punched
from support.programs import program_of
from support.server.pairs import delete_file, make_pair
from support.unit import ends

PUNCH = program_of("index-punch")
BLOCK = 4096
FILES = {f"frob-1.{at}.tar.gz": bytes([65 + at]) * (2 * BLOCK + 100 * at) for at in range(4)}
FIRST, SECOND, THIRD, LAST = FILES


class World:
    """A pair, a folder with copies, and the notes."""

    def __init__(self, tmp_path, monkeypatch):
        # the disk is not waited for: no test cuts the power
        for name in ("fsync", "fdatasync"):
            monkeypatch.setattr(os, name, lambda _: None)
        self.db, self.folder, self.notes = f"{tmp_path}/var/index.db", f"{tmp_path}/copies", f"{tmp_path}/notes"
        for name in ("var", "copies", "notes"):
            os.mkdir(tmp_path / name)
        make_pair(self.db, FILES)
        self.volume = f"{self.db}-volume"

    def bytes(self, path=None):
        with open(path or self.volume, "rb") as file:
            return file.read()

    def delete(self, *files):
        for file in files:
            delete_file(self.db, file)

    def keep(self, day, copy=1):
        """A backup of this day, whose bytes are in the copy of the volume of this number."""
        db, name = f"{self.folder}/index-2026010{day}T000000Z.db", f"index-2026010{copy}T000000Z.volume"
        shutil.copy(self.db, db)
        if not os.path.exists(f"{self.folder}/{name}"):
            shutil.copy(self.volume, f"{self.folder}/{name}")
        os.symlink(name, f"{db}-volume")
        return db

    def copy(self, number=1):
        return f"{self.folder}/index-2026010{number}T000000Z.volume"

    def punch(self, is_stopped=False):
        return punched.punch_volume(self.db, self.notes, is_stopped)


def run(monkeypatch, capsys, world, *more):
    """How index-punch ends."""
    return ends(PUNCH, monkeypatch, capsys, world.db, world.folder, "--notes", world.notes, *more)
