"""The words of the laws of index_rules (crates/index_rules/src/laws.rt) of a history of the plain model: which of them
its last entry breaks. They are written from the laws' sentences, and not from the rules."""
from __future__ import annotations

import copy
from collections.abc import Callable, Iterator
from typing import Any, Optional

from plain_model import names
from struck_model import Entry, answer, history_of

SIX_WEEKS, TWELVE_MONTHS, ENOUGH, MEANS = 3_628_800, 31_536_000, 3, {"profile", "author", "pages"}
# what is done once, so that it can't be repeated; of set_token and remove_owner see `can_repeat`
ONCE = "relinquish", "open_case", "record_attempt", "transfer", "close_case", "answer_case"
OF_STATES = "claim", "relinquish", "prohibit", "allow"
OF_OWNERS = *OF_STATES, "add_owner", "remove_owner", "transfer"
OWNERS_REQUESTS = "add_owner", "remove_owner", "upload", "delete", "yank", "unyank", "relinquish", "answer_case"


def is_office(tables: Any, user: str) -> bool:
    return user in tables.users and tables.users[user].office


def owners(tables: Any, name: Optional[str]) -> set[str]:
    return {*tables.held[name].owners} if name in tables.held else set()


def names_of(entry: Entry) -> set[str]:
    """All names of which the tables before or after an entry have something."""
    both = entry.before, entry.after
    return {name for it in both for name in (*it.held, *it.prohibited, *(file.project for file in it.files.values()))}


def state(tables: Any, name: str) -> str:
    return "held" if name in tables.held else "prohibited" if name in tables.prohibited else "free"


def all_of(tables: Any, name: str) -> object:
    """All that the tables have of a name and its files, but for its case."""
    held = copy.copy(tables.held.get(name))
    files = {file: it for file, it in tables.files.items() if it.project == name}
    if held:
        held.case = None
    return state(tables, name), held, files, {file for file in tables.banned if file in files}


def case(tables: Any, name: str) -> object:
    return tables.held[name].case if name in tables.held else None


def tokens_have_one_bearer(history: list[Entry]) -> bool:
    digests = [user.digest for user in history[-1].after.users.values()]
    return len({*digests}) == len(digests)


def uploads(history: list[Entry]) -> Iterator[tuple[int, str, bytes, Entry]]:
    for number, entry in enumerate(history):
        if entry.do == "upload":
            yield number, entry.step[2]["file"], entry.step[2]["body"], entry


def file_names_are_bound(history: list[Entry]) -> bool:
    last, asked = history[-1], history[-1].step[2]
    if last.do != "upload":
        return True
    bodies = [body for _, file, body, _ in uploads(history) if file == asked["file"]]
    bans = [it for it in history if it.do == "ban_file" and it.step[2]["file"] == asked["file"]]
    return asked["sha256"] == names.sha256(asked["body"]) and len({*bodies}) == 1 and not bans


def served_bytes_are_bound(history: list[Entry]) -> bool:
    for file, it in history[-1].after.files.items():
        served = {entry.after.files[file].body for entry in history if file in entry.after.files} - {None}
        uploaded = [body for _, of, body, _ in uploads(history) if of == file]
        if len(served) > 1 or it.body is not None and it.body not in uploaded:
            return False
    return True


def moves_charge(entry: Entry) -> bool:
    asked, name = entry.step[2], entry.name
    before, after = (tables.charge(name) for tables in (entry.before, entry.after))
    file = entry.before.files.get(asked.get("file"))
    if entry.do == "upload":
        return bool(after == before + len(asked["body"]) and not (file and file.body is not None))
    if entry.do == "delete" or entry.do == "ban_file" and file and file.body is not None:
        return bool(after + file.size == before)
    return bool(after == (0 if entry.do == "prohibit" else before))


def charges_states_and_owners_move_as_recorded(history: list[Entry]) -> bool:
    entry = history[-1]
    for name in names_of(entry):
        is_own = name == entry.name
        if state(entry.before, name) != state(entry.after, name) and not (is_own and entry.do in OF_STATES):
            return False
        if owners(entry.before, name) != owners(entry.after, name) and not (is_own and entry.do in OF_OWNERS):
            return False
        if not is_own and entry.before.charge(name) != entry.after.charge(name):
            return False
    return entry.name is None or moves_charge(entry)


def transfers_were_ready(history: list[Entry]) -> bool:
    entry, asked = history[-1], history[-1].step[2]
    if entry.do != "transfer":
        return True
    held = entry.before.held.get(entry.name)
    if not held or not held.case:
        return False
    own = [it for it in history[:-1] if it.name == entry.name]
    opened = max(number for number, it in enumerate(own) if it.do == "open_case")
    sent = [it.step[0] for it in own[opened:] if it.do == "record_attempt" and it.step[2]["sent"]]
    means = {it.step[2]["means"] for it in own[opened:] if it.do == "record_attempt"}
    waited = len(sent) >= ENOUGH and means == MEANS and entry.step[0] >= sent[0] + SIX_WEEKS
    rested = held.latest is None or entry.step[0] >= held.latest + TWELVE_MONTHS
    now = entry.after.held[entry.name]
    left = now.owners == {held.case.candidate} and (now.quota, now.yanks) == (held.quota, held.yanks)
    unanswered = not any(it.do in OWNERS_REQUESTS for it in own[opened:])
    return bool(asked["quiet"] and waited and rested and unanswered and left)


def names_stand_alone(history: list[Entry]) -> bool:
    entry = history[-1]
    if entry.name is None:
        return True
    alone = [it.step for it in history if it.name in (None, entry.name)]
    return len(history_of(alone)) == len(alone)


def tables_of_a_legal_history_are_sound(history: list[Entry]) -> bool:
    tables = history[-1].after
    held = all(it.owners and it.quota >= tables.charge(name) for name, it in tables.held.items())
    files = all(names.read_file_name(file) == (it.project, it.release) for file, it in tables.files.items())
    there = [it for it in tables.files.values() if it.body is not None]
    bodies = all(it.project in tables.held and (names.sha256(it.body), len(it.body)) == (it.digest, it.size)
                 for it in there)
    bans = all(file in tables.files and tables.files[file].body is None for file in tables.banned)
    return tokens_have_one_bearer(history) and held and files and bodies and bans


def quotas(tables: Any) -> dict[str, int]:
    return {name: it.quota for name, it in tables.held.items()}


def keeps_what_is_the_offices(entry: Entry) -> bool:
    """Of an entry by a user who is not of the office."""
    before, after = entry.before, entry.after
    claimed = entry.name if entry.do == "claim" else None
    were = {name: quota for name, quota in quotas(before).items() if name in after.held and name != claimed}
    kept = all(quotas(after)[name] == quota for name, quota in were.items())
    same = before.users == after.users and before.banned == after.banned
    return same and after.prohibited <= before.prohibited and kept


def keeps_the_name(entry: Entry, name: str) -> bool:
    """Whether an entry changes of a name only what its user may change."""
    before, after, actor = entry.before, entry.after, entry.actor
    is_own, is_owner = name == entry.name, actor in owners(before, name)
    claims = is_own and entry.do == "claim"
    same, same_case = all_of(before, name) == all_of(after, name), case(before, name) == case(after, name)
    if claims and state(before, name) != "free" or not is_own and not (same and same_case):
        return False
    takes = is_own and entry.do in ("transfer", "prohibit")
    if name in before.held and not is_owner and not takes and owners(before, name) != owners(after, name):
        return False
    if is_office(before, actor) or is_owner:
        return True
    held = before.held.get(name)
    is_candidate = bool(held and held.case and held.case.candidate == actor)
    return (same or claims) and (same_case or not (held and held.case) or is_candidate)


def only_its_owners_and_the_office_change_a_name(history: list[Entry]) -> bool:
    entry = history[-1]
    flags = {user: it.office for user, it in entry.before.users.items()}
    if any(user not in entry.after.users or entry.after.users[user].office != flag for user, flag in flags.items()):
        return False
    if not is_office(entry.before, entry.actor) and not keeps_what_is_the_offices(entry):
        return False
    return all(keeps_the_name(entry, name) for name in names_of(entry))


def served_bytes_come_from_owners(history: list[Entry]) -> bool:
    last, asked = history[-1], history[-1].step[2]
    if last.do != "upload":
        return True
    return any(it.actor in owners(it.before, it.name) for _, file, body, it in uploads(history)
               if (file, body) == (asked["file"], asked["body"]))


def can_repeat(entry: Entry) -> bool:
    asked: dict[str, Any] = entry.step[2]
    is_of_himself = entry.do in ("set_token", "remove_owner") and asked["user"] == entry.actor
    return entry.do not in ONCE and not is_of_himself


def repeated_requests_are_already(history: list[Entry]) -> bool:
    entry = history[-1]
    return not can_repeat(entry) or answer(copy.deepcopy(entry.after), entry.step)[0] == "already"


LAWS: list[Callable[[list[Entry]], bool]] = [
    only_its_owners_and_the_office_change_a_name, served_bytes_come_from_owners, file_names_are_bound,
    served_bytes_are_bound, charges_states_and_owners_move_as_recorded, transfers_were_ready, tokens_have_one_bearer,
    tables_of_a_legal_history_are_sound, repeated_requests_are_already, names_stand_alone]


def breaks(history: list[Entry]) -> list[str]:
    """The laws that the last entry of a history breaks, if those before it broke none."""
    return [law.__name__ for law in LAWS if not law(history)]
