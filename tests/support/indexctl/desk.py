"""Commands of indexctl at a desk that keeps what it is asked for."""
from __future__ import annotations

import importlib

from indexctl.command_line import parsed
from indexctl.ends import REFUSED
from indexctl.standings import Standing
from indexctl.terminal import say_row

from support.indexctl.rows import SETTING

MODULES = [importlib.import_module(f"indexctl.commands.{it}") for it in (
    "tokens", "checks", "users", "names", "files", "releases", "listings", "contents", "cases", "work")]
FREE = Standing("free", "free", given={"name": "free", "state": "free"})


class FakeDesk:
    """Keeps what was asked for, and says of each whether it is so now."""

    def __init__(self, refuses=(), users=("ann", "bob"), caller="office"):
        self.asked, self.refuses, self.users, self.refused, self.user = [], refuses, users, 0, "me"
        self.index, self.setting, self.is_caller, self.is_json = self, SETTING, caller, False

    def say(self, text, row=None):
        say_row(self.is_json, text, row)

    def change(self, what, row, token=None, more=None, shown=None):
        self.asked.append({**row, **({"token": token} if token else {}), **(more or {})})
        is_so = row["do"] not in self.refuses
        self.refused += not is_so
        return is_so

    def delete(self, file):
        return self.change("delete", {"do": "delete", "file": file})

    def is_user(self, user):
        return user in self.users

    def is_own(self, user):
        return user == self.user

    def token(self):
        return "office"

    def caller(self):
        return self.is_caller

    def status(self):
        return REFUSED if self.refused else 0


class Run:
    """Commands at a desk, with these names held."""

    def __init__(self, monkeypatch):
        self.desk, self.names, self.confirmed, self.monkeypatch = FakeDesk(), [], [], monkeypatch
        self.lists, self.shown, self.contents, self.fresh = [], [], {}, []
        self.put("Desk", lambda _: self.desk)
        self.put("held_names", self.listed)
        self.put("find_standing", self.standing)
        self.put("confirm", lambda args, said: self.confirmed.append(said))
        self.put("confirm_on_terminal", lambda args, said: self.shown.append(said))
        self.put("find_contents", self.listed_files)
        self.put("not_held", lambda _, name: f"Nobody holds {name}.")
        self.looked = []
        self.put("tell_served", lambda _, files: self.looked.extend(files))

    def put(self, name, made):
        for it in MODULES:
            if hasattr(it, name):
                self.monkeypatch.setattr(it, name, made)

    def listed(self, _, is_fresh=False):
        """The held names. `lists` has how each list was asked for: a fresh one, and behind how many changes."""
        self.lists.append((is_fresh, len(self.desk.asked)))
        return iter(self.names)

    def listed_files(self, _, name, is_fresh=False):
        """The files of a name. `fresh` has the names of which no page was taken that nginx keeps."""
        self.fresh += [name] if is_fresh else []
        return self.contents.get(name)

    def standing(self, _, name):
        return next((it for it in self.names if it.name == name), FREE)

    def __call__(self, *words):
        args = parsed(words)
        return args.function(args) or 0

    def asked(self, *words):
        assert self(*words) == 0
        return self.desk.asked
