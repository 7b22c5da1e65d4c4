"""Who may ask what, and what becomes of it (docs/reference/REQUESTS.md, docs/office/RETENTION.md).

`answer` takes a call and returns `accepted`, `already` or the number of a refusal. The tables change only if it is
accepted. REFUSALS_OF, ALREADY and EFFECT are the columns of the page's table: which refusals can meet a request, when
it is already so, and what it does."""
from .names import (EMPTY_DIGEST, bytes_of, is_digest, is_text, is_user_id, read_file_name, read_name, read_release,
                    sha256)
from .tables import Case, File, Held, User

LAST_MOMENT = 253_402_300_799
MOST_BODY = 16_777_216
MOST_QUOTA = 1_099_511_627_776
MOST_ATTEMPTS = 1_000
ENOUGH_SENT = 3
SIX_WEEKS = 3_628_800
TWELVE_MONTHS = 31_536_000
MEANS = "profile", "author", "pages"


class Call:
    """A request with its moment and its caller, and what the tables have of its name, its file and its case."""

    def __init__(self, tables, at, token, asked):
        self.tables, self.at, self.asked, self.do = tables, at, asked, asked["do"]
        self.caller = tables.bearer(sha256(bytes_of(token)))
        self.is_office = self.caller is not None and tables.users[self.caller].office
        self.spelled = read_file_name(asked["file"]) if "file" in asked else None
        self.name = self.spelled[0] if self.spelled else read_name(asked["name"]) if "name" in asked else None
        self.held = tables.held.get(self.name)
        self.case = self.held and self.held.case
        self.file = tables.files.get(asked.get("file"))
        self.user = tables.users.get(asked.get("user"))
        self.release = read_release(asked["release"]) if "release" in asked else None

    def is_undeleted(self):
        return self.file is not None and self.file.body is not None

    def owns(self, user):
        return self.held is not None and user in self.held.owners


def answer(call):
    """The least refusal that applies; else `already` if it is so already; else `accepted`, and its effect is made."""
    for number in (1, 2, *REFUSALS_OF[call.do]):
        if APPLIES[number](call):
            return number
    if ALREADY[call.do](call):
        return "already"
    EFFECT[call.do](call)
    if call.do in REQUESTS_OF_OWNERS:
        call.held.case = None
    return "accepted"


# The refusals (REQUESTS, 'Refusals'). Each is asked only if none of those before it in its row applies.

def bad_moment(call):
    return call.at > LAST_MOMENT


def bad_token(call):
    return call.caller is None


def not_office(call):
    """Not of the office; for close_case, nor the candidate of an open case."""
    is_candidate = call.do == "close_case" and call.case and call.case.candidate == call.caller
    return not call.is_office and not is_candidate


def bad_user(call):
    return not is_user_id(call.asked["user"])


def bad_name(call):
    return call.name is None


def bad_file_name(call):
    return call.spelled is None


def bad_release(call):
    return call.release is None


def bad_text(call):
    """Too long, with a control character or not UTF-8; a text of a case also if it has no bytes."""
    texts_of_a_case = [call.asked[key] for key in ("contact", "work", "why") if key in call.asked]
    texts = texts_of_a_case + [call.asked[key] for key in ("requires_python", "reason") if key in call.asked]
    return "" in texts_of_a_case or not all(map(is_text, texts))


def bad_digest(call):
    """Not a digest; for a token also the digest of the empty text."""
    if call.do == "upload":
        return not is_digest(call.asked["sha256"])
    return not is_digest(call.asked["token_sha256"]) or call.asked["token_sha256"] == EMPTY_DIGEST


def too_large(call):
    return len(call.asked["body"]) > MOST_BODY


def digest_mismatch(call):
    return sha256(call.asked["body"]) != call.asked["sha256"]


def quota_too_large(call):
    return call.asked["quota"] > MOST_QUOTA


def no_user(call):
    return call.user is None


def is_user(call):
    """Whether the user exists with this flag and this digest."""
    return call.user == User(call.asked["office"], call.asked["token_sha256"])


def user_exists(call):
    return call.user is not None and not is_user(call)


def token_taken(call):
    return call.tables.bearer(call.asked["token_sha256"]) not in (None, call.asked["user"])


def name_prohibited(call):
    return call.name in call.tables.prohibited


def no_project(call):
    return call.held is None


def not_owner(call):
    return not call.owns(call.caller)


def name_held(call):
    return call.held is not None and not call.owns(call.caller)


def last_owner(call):
    return call.held.owners == {call.asked["user"]}


def files_remain(call):
    return bool(call.tables.undeleted(call.name))


def no_file(call):
    return call.file is None


def no_release(call):
    return call.release not in {file.release for file in call.tables.undeleted(call.name).values()}


def file_name_taken(call):
    bound = call.file and (call.file.digest, call.file.size)
    return bound is not None and bound != (call.asked["sha256"], len(call.asked["body"]))


def file_banned(call):
    return call.asked["file"] in call.tables.banned


def over_quota(call):
    """A file that is undeleted is charged already, and needs no room."""
    return not call.is_undeleted() and call.tables.charge(call.name) + len(call.asked["body"]) > call.held.quota


def quota_below_charge(call):
    return call.asked["quota"] < call.tables.charge(call.name)


def case_open(call):
    return call.case is not None


def owner_candidate(call):
    return call.owns(call.caller)


def no_case(call):
    return call.case is None


def attempts_full(call):
    return call.case.attempts >= MOST_ATTEMPTS


def too_few_attempts(call):
    """Fewer than three were sent, or one of the three means has no attempt, sent or not."""
    return call.case.sent < ENOUGH_SENT or call.case.means != set(MEANS)


def too_early(call):
    """Less than six weeks after the first attempt that was sent, in the order of recording."""
    return call.at < call.case.first + SIX_WEEKS


def recent_release(call):
    """Less than twelve months after the latest upload since the claim."""
    return call.held.latest is not None and call.at < call.held.latest + TWELVE_MONTHS


def home_page_active(call):
    return not call.asked["quiet"]


REFUSALS = [
    bad_moment, bad_token, not_office, bad_user, bad_name, bad_file_name, bad_release, bad_text, bad_digest, too_large,
    digest_mismatch, quota_too_large, no_user, user_exists, token_taken, name_prohibited, no_project, not_owner,
    name_held, last_owner, files_remain, no_file, no_release, file_name_taken, file_banned, over_quota,
    quota_below_charge, case_open, owner_candidate, no_case, attempts_full, too_few_attempts, too_early,
    recent_release, home_page_active]
APPLIES = dict(enumerate(REFUSALS, 1))
# by its number, the name of a refusal: `bad_moment` is BadMoment
NAME_OF = {number: it.__name__.title().replace("_", "") for number, it in APPLIES.items()}


# The effects of accepted requests.

def add_user(call):
    call.tables.users[call.asked["user"]] = User(call.asked["office"], call.asked["token_sha256"])


def set_token(call):
    call.user.digest = call.asked["token_sha256"]


def set_quota(call):
    call.held.quota = call.asked["quota"]


def prohibit(call):
    """The name's files are deleted, and its owners, its yanks and its case end."""
    for file in call.tables.undeleted(call.name).values():
        file.body = None
    call.tables.held.pop(call.name, None)
    call.tables.prohibited.add(call.name)


def allow(call):
    call.tables.prohibited.remove(call.name)


def claim(call):
    call.tables.held[call.name] = Held(call.asked["name"], {call.caller})


def relinquish(call):
    del call.tables.held[call.name]


def add_owner(call):
    call.held.owners.add(call.asked["user"])


def remove_owner(call):
    call.held.owners.remove(call.asked["user"])


def upload(call):
    body = call.asked["body"]
    file = call.tables.files.setdefault(call.asked["file"], File(*call.spelled, call.asked["sha256"], len(body)))
    file.requires, file.body = call.asked["requires_python"], body
    call.held.latest = max(call.at, call.held.latest or 0)


def delete(call):
    call.file.body = None


def ban_file(call):
    call.file.body = None
    call.tables.banned.add(call.asked["file"])


def yank(call):
    call.held.yanks[call.release] = call.asked["reason"]


def unyank(call):
    del call.held.yanks[call.release]


def open_case(call):
    asked = call.asked
    call.held.case = Case(asked["kind"], call.caller, asked["contact"], asked["work"], asked["why"], call.at)


def record_attempt(call):
    """The first attempt that was sent is the first in the order of recording, whatever its moment."""
    case = call.case
    case.attempts += 1
    case.means.add(call.asked["means"])
    if call.asked["sent"]:
        case.sent += 1
        case.first = call.at if case.first is None else case.first


def transfer(call):
    call.held.owners, call.held.case = {call.case.candidate}, None


def close_case(call):
    call.held.case = None


def never(call):
    return False


# By the name of a request: the refusals that can meet it beside 1 and 2, when it is already so, and its effect.
REFUSALS_OF = {
    "add_user": (3, 4, 9, 14, 15), "set_token": (3, 4, 9, 13, 15), "set_quota": (3, 5, 12, 17, 27),
    "prohibit": (3, 5), "allow": (3, 5), "claim": (5, 16, 19), "relinquish": (5, 17, 18, 21),
    "add_owner": (4, 5, 13, 17, 18), "remove_owner": (4, 5, 13, 17, 18, 20),
    "upload": (6, 8, 9, 10, 11, 17, 18, 24, 25, 26), "delete": (6, 17, 18, 22), "ban_file": (3, 6, 22),
    "yank": (5, 7, 8, 17, 18, 23), "unyank": (5, 7, 17, 18, 23), "open_case": (5, 8, 17, 28, 29),
    "record_attempt": (3, 5, 17, 30, 31), "transfer": (3, 5, 17, 30, 32, 33, 34, 35), "close_case": (3, 5, 17, 30),
    "answer_case": (5, 17, 18, 30)}
ALREADY = {
    "add_user": is_user,
    "set_token": lambda call: call.user.digest == call.asked["token_sha256"],
    "set_quota": lambda call: call.held.quota == call.asked["quota"],
    "prohibit": name_prohibited,
    "allow": lambda call: not name_prohibited(call),
    "claim": lambda call: call.owns(call.caller),
    "relinquish": never,
    "add_owner": lambda call: call.owns(call.asked["user"]),
    "remove_owner": lambda call: not call.owns(call.asked["user"]),
    "upload": Call.is_undeleted,
    "delete": lambda call: not call.is_undeleted(),
    "ban_file": file_banned,
    "yank": lambda call: call.held.yanks.get(call.release) == call.asked["reason"],
    "unyank": lambda call: call.release not in call.held.yanks,
    "open_case": never, "record_attempt": never, "transfer": never, "close_case": never, "answer_case": never}
EFFECT = {
    "add_user": add_user, "set_token": set_token, "set_quota": set_quota, "prohibit": prohibit, "allow": allow,
    "claim": claim, "relinquish": relinquish, "add_owner": add_owner, "remove_owner": remove_owner, "upload": upload,
    "delete": delete, "ban_file": ban_file, "yank": yank, "unyank": unyank, "open_case": open_case,
    "record_attempt": record_attempt, "transfer": transfer, "close_case": close_case, "answer_case": close_case}
# each of these, accepted, ends the name's open case
REQUESTS_OF_OWNERS = {"upload", "delete", "yank", "unyank", "add_owner", "remove_owner", "relinquish", "answer_case"}


def standing(tables, text):
    """What is told of a name to everybody; 5 if the text is not a project name."""
    name = read_name(text)
    if name is None:
        return 5
    held = tables.held.get(name)
    if held is None:
        return {"name": name, "state": "prohibited" if name in tables.prohibited else "free"}
    return {"name": name, "state": "held", "shown": held.shown, "owners": sorted(held.owners), "quota": held.quota,
            "charge": tables.charge(name), "case": held.case and case_as_told(held.case)}


def case_as_told(case):
    keys = "kind", "candidate", "contact", "work", "why", "opened", "attempts", "sent", "first"
    return {**{key: getattr(case, key) for key in keys}, **{means: means in case.means for means in MEANS}}
