"""Requests chosen at random beside the tables of the model, so that most are accepted and each refusal is met."""
from support.model import rules
from support.model.names import EMPTY_DIGEST, sha256
from support.model.tables import QUOTA_OF_A_CLAIM

USERS = "ann", "bob", "carol", "dave", "z9"
# each with the words of which its spellings are made
NAMES = ("frob",), ("frob", "nest"), ("zope", "interface"), ("a",), ("egg", "2"), ("x" * 128,)
BAD_NAMES = "", "-frob", "frob-", "fr ob", "frob/", "\u00e9gg", "x" * 129, "frob\n"
VERSIONS = "1.0", "1.0RC1", "2", "3.0+local.1", "1!2.0", "0"
BAD_VERSIONS = "", "1.0-1", ".1", "1.", "1" * 65, "1 0"
BAD_FILES = (
    "", "frob.tar.gz", "frob-1.0.zip", "frob-1.0.TAR.GZ", "-frob-1.0.tar.gz", "frob-1.0-py3-none.whl", ".whl",
    "-.tar.gz", "frob-1.0-x1-py3-none-any.whl", "frob-1.0-1-2-py3-none-any.whl", "fr@b-1.0.tar.gz",
    "frob-1-py3-none-" + "y" * 236 + ".whl")
REQUIRES = "", "", ">=3.8", '<4 & "odd" >', "\u00e9\u4e2d\U0001f600", "r" * 512
REASONS = "", "broken", 'a <b> & "c"', "\\ back", "\u00e9" * 256
BAD_TEXTS = "r" * 513, "a\nb", "\x7f", "a\u0085b", "\u00e9" * 257
CASE_TEXTS = "mail", 'sent "twice" \\ by hand', "\u00fc", "w" * 512
BAD_DIGESTS = "", "0" * 63, "0" * 65, "A" * 64, "g" * 64, EMPTY_DIGEST
BAD_USERS = "", "Ann", "a" * 33, "a-b", "\u00e9"
DAY = 86_400


class Chooser:
    """What asks next. It remembers the tokens of users and the bodies of files, which the tables do not keep."""

    def __init__(self, random, tables):
        self.random, self.tables = random, tables
        self.now = random.choice((0, 1, 40_000_000, 1_790_000_000))
        self.tokens, self.bodies, self.made = {"office": "office"}, {}, 0

    def often(self, share=0.9):
        return self.random.random() < share

    def one(self, values, otherwise=("",)):
        return self.random.choice(sorted(values) or otherwise)

    # Moments

    def moment(self):
        """A moment a little later, sometimes much later or earlier, and at times no moment."""
        if not self.often(0.99):
            return self.one((0, rules.LAST_MOMENT, rules.LAST_MOMENT + 1, 2 ** 64 - 1))
        step = self.random.choice((0, 0, 1, 1, 1, 60, DAY, 14 * DAY, -1, -DAY))
        self.now = min(max(0, self.now + step), rules.LAST_MOMENT)
        return self.now

    def moment_for_transfer(self, name):
        """The moments round the ends of the two times, or the present."""
        held = self.tables.held.get(name)
        if held is None or held.case is None or not self.often(0.95):
            return self.moment()
        early = held.case.first + rules.SIX_WEEKS if held.case.first is not None else self.now
        recent = held.latest + rules.TWELVE_MONTHS if held.latest is not None else early
        end = max(early, recent)
        moment = self.random.choice((early - 1, early, recent - 1, recent, end, end, end, end + DAY))
        if self.often(0.3):
            self.now = min(max(0, moment), rules.LAST_MOMENT)
        return max(0, moment)

    # Callers and values

    def token_of(self, users):
        """The token of one of these users; at times somebody else's, or nobody's."""
        if self.often(0.93):
            return self.tokens.get(self.one(users, ("ann",)), "office")
        return self.random.choice([*self.tokens.values(), "stranger", "stranger", ""])

    def office(self):
        return self.token_of([user for user, it in self.tables.users.items() if it.office])

    def owner(self, name):
        held = self.tables.held.get(name)
        return self.token_of(held.owners if held else self.tables.users)

    def stranger(self, name):
        held = self.tables.held.get(name)
        return self.token_of(set(self.tables.users) - (held.owners if held else set()))

    def spelling(self, name):
        """A spelling of a normal name."""
        words = name.split("-")
        joined = words[0]
        for word in words[1:]:
            joined += self.random.choice(("-", "_", ".", "._-") if len(name) < 100 else "-") + word
        return self.random.choice((joined, joined, joined.upper(), joined.title()))

    def name(self, wanted):
        """A name for which this holds, if there is one; at times any other. A normal form."""
        every = ["-".join(words) for words in NAMES]
        return self.one([name for name in every if wanted(name)] if self.often(0.93) else every, every)

    def written(self, name):
        """A text for a name: mostly a spelling of it."""
        return self.spelling(name) if self.often(0.97) else self.random.choice(BAD_NAMES)

    def is_held(self, name):
        return name in self.tables.held

    def has_no_case(self, name):
        return self.is_held(name) and self.tables.held[name].case is None

    def has_case(self, name):
        return self.is_held(name) and self.tables.held[name].case is not None

    def owned_name(self):
        """A held name, seldom one whose case the request would end."""
        return self.name(self.has_no_case if self.often(0.9) else self.is_held)

    def new_file(self, name):
        """A file name of this project."""
        version, project = self.random.choice(VERSIONS), self.spelling(name)
        if self.often(0.5):
            return f"{project}-{version}.tar.gz"
        build = self.random.choice(("", "", "-1", "-2.x"))
        return f"{project.replace('-', '_')}-{version}{build}-{self.random.choice(('py3', 'py2.py3'))}-none-any.whl"

    def file(self, wanted, name, share=0.9):
        """A file name of this project for which something holds, or a new one, or none."""
        if not self.often(0.97):
            return self.random.choice(BAD_FILES)
        known = [spelled for spelled, it in self.tables.files.items() if it.project == name and wanted(spelled, it)]
        return self.one(known) if known and self.often(share) else self.new_file(name)

    def user(self, wanted):
        fitting = [user for user in self.tables.users if wanted(user)]
        return self.one(fitting if self.often(0.9) else [*USERS, *BAD_USERS], USERS)

    def token_digest(self, user):
        """The digest of a new token of a user, or of one that is in use."""
        if self.often(0.8):
            self.made += 1
            return self.remembered(user, f"token-{self.made}")
        if self.often(0.7):
            return sha256(self.one(self.tokens.values()).encode())
        return self.random.choice(BAD_DIGESTS)

    def remembered(self, user, token):
        """The digest of a token. Where the request is refused nobody bears it, and the old one goes on."""
        self.offered = user, token
        return sha256(token.encode())

    def settle(self):
        """Keeps the token that the last request offered, if it was accepted."""
        user, token = self.offered
        if user in self.tables.users and self.tables.users[user].digest == sha256(token.encode()):
            self.tokens[user] = token

    offered = "office", "office"

    def text(self, values):
        return self.random.choice(values if self.often(0.95) else BAD_TEXTS)

    # Requests: each returns the moment, the token and what is asked

    def add_user(self):
        user = self.user(bool) if self.often(0.3) else self.one([*USERS, "head"] if self.often(0.97) else BAD_USERS)
        is_office = user == "head" or not self.often(0.95)
        known = self.tables.users.get(user)
        digest = known.digest if known and self.often(0.6) else self.token_digest(user)
        asked = {"do": "add_user", "user": user, "office": is_office, "token_sha256": digest}
        return self.moment(), self.office(), asked

    def set_token(self):
        user = self.user(lambda it: it != "office")
        known = self.tables.users.get(user)
        digest = known.digest if known and self.often(0.2) else self.token_digest(user)
        return self.moment(), self.office(), {"do": "set_token", "user": user, "token_sha256": digest}

    def set_quota(self):
        name = self.name(self.is_held)
        charge = self.tables.charge(name)
        quota = self.random.choice((
            charge, charge + 5, charge + 40, charge + 40, charge + 200, max(0, charge - 1), 0, QUOTA_OF_A_CLAIM,
            QUOTA_OF_A_CLAIM, rules.MOST_QUOTA, rules.MOST_QUOTA + 1, 2 ** 64 - 1))
        return self.moment(), self.office(), {"do": "set_quota", "name": self.written(name), "quota": quota}

    def of_name(self, do, name, token, moment=None, **more):
        return self.moment() if moment is None else moment, token, {"do": do, "name": self.written(name), **more}

    def prohibit(self):
        name = self.name(lambda it: it not in self.tables.prohibited)
        return self.of_name("prohibit", name, self.office())

    def allow(self):
        return self.of_name("allow", self.name(self.tables.prohibited.__contains__), self.office())

    def claim(self):
        is_free = (lambda it: not self.is_held(it) and it not in self.tables.prohibited) if self.often(0.8) else bool
        name = self.name(is_free)
        return self.of_name("claim", name, self.token_of(self.tables.users))

    def relinquish(self):
        name = self.name(lambda it: self.has_no_case(it) and not self.tables.undeleted(it))
        return self.of_name("relinquish", name, self.owner(name))

    def add_owner(self):
        name = self.owned_name()
        user = self.user(lambda it: not self.is_held(name) or it not in self.tables.held[name].owners)
        return self.of_name("add_owner", name, self.owner(name), user=user)

    def remove_owner(self):
        name = self.owned_name()
        if self.often(0.7):
            name = self.name(lambda it: self.is_held(it) and len(self.tables.held[it].owners) > 1)
        user = self.user(lambda it: self.is_held(name) and it in self.tables.held[name].owners)
        return self.of_name("remove_owner", name, self.owner(name), user=user)

    def upload(self):
        name = self.owned_name()
        file = self.file(lambda spelled, it: self.often(0.3) if it.body is not None else True, name, 0.4)
        body = self.bodies.get(file)
        if body is None or not self.often(0.9):
            sizes = (0, 1, 3, 3, 10, 40, 40, 200, 5_000) if body is None or self.often(0.5) else (len(body),)
            body = self.random.randbytes(self.random.choice(sizes))
        digest = sha256(body) if self.often(0.92) else self.random.choice((*BAD_DIGESTS[:3], *[sha256(b"other")] * 3))
        asked = {"do": "upload", "file": file, "sha256": digest, "body": body, "requires_python": self.text(REQUIRES)}
        return self.moment(), self.owner(name), asked

    def delete(self):
        name = self.owned_name()
        file = self.file(lambda spelled, it: it.body is not None or not self.often(), name)
        return self.moment(), self.owner(name), {"do": "delete", "file": file}

    def ban_file(self):
        name = self.name(lambda it: any(file.project == it for file in self.tables.files.values()))
        return self.moment(), self.office(), {"do": "ban_file", "file": self.file(lambda *_: True, name)}

    def release_of(self, name):
        """A release of a name, in some spelling."""
        live = [it.release for it in self.tables.undeleted(name).values()]
        release = self.one(live if self.often(0.9) else VERSIONS, VERSIONS)
        return self.random.choice((release, release.upper()) if self.often(0.97) else BAD_VERSIONS)

    def yank(self):
        name = self.owned_name()
        return self.of_name("yank", name, self.owner(name), release=self.release_of(name), reason=self.text(REASONS))

    def unyank(self):
        name = self.owned_name()
        held = self.tables.held.get(name)
        release = self.one(held.yanks) if held and held.yanks and self.often(0.8) else self.release_of(name)
        return self.of_name("unyank", name, self.owner(name), release=release)

    def open_case(self):
        name = self.name(self.has_no_case)
        texts = {key: self.text(CASE_TEXTS) if self.often(0.98) else "" for key in ("contact", "work", "why")}
        token = self.stranger(name) if self.often(0.93) else self.owner(name)
        return self.of_name("open_case", name, token, kind=self.random.choice(("continue", "reuse")), **texts)

    def record_attempt(self):
        name = self.name(self.has_case)
        case = self.tables.held[name].case if self.has_case(name) else None
        missing = set(rules.MEANS) - case.means if case else ()
        means = self.one(missing if missing and self.often(0.7) else rules.MEANS)
        return self.of_name("record_attempt", name, self.office(), means=means, sent=self.often(0.8))

    def transfer(self):
        """Mostly of a case with attempts enough."""
        least = 3 if self.often(0.8) else 0
        name = self.name(lambda it: self.has_case(it) and self.tables.held[it].case.sent >= least)
        return self.of_name("transfer", name, self.office(), self.moment_for_transfer(name), quiet=self.often(0.75))

    def close_case(self):
        name = self.name(self.has_case)
        candidate = {self.tables.held[name].case.candidate} if self.has_case(name) else self.tables.users
        return self.of_name("close_case", name, self.token_of(candidate) if self.often(0.6) else self.office())

    def answer_case(self):
        name = self.name(self.has_case)
        return self.of_name("answer_case", name, self.owner(name))

    def standing(self):
        name = self.name(lambda it: self.is_held(it) or self.often(0.2))
        return None, None, {"do": "standing", "name": self.written(name)}

    # by the name of a request, how often it is chosen among all
    OFTEN = {
        "add_user": 5, "set_token": 3, "set_quota": 6, "prohibit": 1, "allow": 2, "claim": 9, "relinquish": 2,
        "add_owner": 5, "remove_owner": 4, "upload": 28, "delete": 7, "ban_file": 2, "yank": 8, "unyank": 4,
        "open_case": 8, "record_attempt": 22, "transfer": 15, "close_case": 1, "answer_case": 1, "standing": 4}

    def request(self, do=None):
        """The moment, the token and what is asked next, which may be given. `settle` is to follow, once the model has
        answered it."""
        do = do or self.random.choices([*self.OFTEN], [*self.OFTEN.values()])[0]
        at, token, asked = getattr(self, do)()
        if do == "upload" and asked["file"] not in self.tables.files:
            self.bodies[asked["file"]] = asked["body"]
        return at, token, asked
