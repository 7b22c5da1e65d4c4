"""Runs of lines and messages that are chosen at random beside the model, and what they have to meet."""
from support.compare.choice import Chooser
from support.compare.odd import odd_line, odd_message
from support.compare.runs import Step, by_model
from support.compare.texts import head, line_of, look, message_of
from support.model import rules
from support.model.messages import PHRASES, STATUS
from support.model.pages import HTML, JSON_1
from support.model.tables import Tables

# how often a line or a message asks what has not had all its answers yet
OF_UNMET = 0.15


class Writing:
    """The steps of one run, chosen one after the other, with the tables of the model as they are then."""

    def __init__(self, chance, met, reopens):
        self.random, self.met, self.reopens, self.steps = chance, met, reopens, []
        self.tables = Tables()
        self.chooser = Chooser(chance, self.tables)

    def take(self, step, do=None):
        """Adds a step, and counts its answer, also with what was asked."""
        self.steps.append(step)
        told = told_of(by_model(self.tables, step))
        self.met[told] += 1
        if do:
            self.met[f"{do}:{told.split()[-1]}"] += 1
        self.chooser.settle()

    def request(self):
        """What is asked next; at times one that has not had all its answers yet."""
        unmet = [it for it in pairs() if not self.met[it]] if self.random.random() < OF_UNMET else []
        return self.chooser.request(self.random.choice(unmet).partition(":")[0] if unmet else None)

    def lines(self, count):
        for _ in range(count):
            at, token, asked = self.request()
            line = line_of(at, token, asked)
            if self.random.random() < 0.06:
                self.take(Step("line", odd_line(self.random, line)))
            else:
                self.take(Step("line", line), asked["do"])
            if self.reopens and self.random.random() < 0.003:
                self.steps.append(Step("open"))

    def messages(self, count):
        """Messages of one moment. If a case is open, that is near the one at which its transfer is ready."""
        cases = [name for name, it in self.tables.held.items() if it.case]
        at = self.chooser.moment_for_transfer(self.random.choice(cases)) if cases else self.chooser.moment()
        for _ in range(count):
            kind = self.random.random()
            if kind < 0.35:
                message, do, line = look(self.random, self.chooser), None, None
            else:
                _, token, asked = self.request()
                message, do, line = message_of(self.random, token, asked), asked["do"], line_of(at, token, asked)
            if kind > 0.76:
                message, do, line = odd_message(self.random, message), None, None
            self.take(Step("message", message, at, line), do)

    def many_attempts(self):
        """Attempts until a case has as many as it may have, and one more."""
        cases = []
        for _ in range(20):
            cases = cases or [name for name, it in self.tables.held.items() if it.case]
            self.lines(0 if cases else 20)
        for name in cases[:1]:
            asked = {"do": "record_attempt", "name": name, "means": "author", "sent": False}
            line = line_of(self.chooser.now, self.chooser.tokens["office"], asked)
            for _ in range(rules.MOST_ATTEMPTS + 1 - self.tables.held[name].case.attempts):
                self.take(Step("line", line), asked["do"])

    def everything(self):
        """A look at all that there is."""
        names = [*sorted(self.tables.held), *sorted(self.tables.prohibited)]
        targets = [f"/simple/{name}/" for name in names] + [f"/names/{name}" for name in names] + ["/simple/"]
        targets += [f"/files/{it.project}/{file}" for file, it in sorted(self.tables.files.items())]
        for target in targets:
            for kind in (HTML, JSON_1) if target.startswith("/simple/") else (HTML,):
                self.take(Step("message", head("GET", target, b"Accept: " + kind.encode()), 0))


def told_of(answer):
    """What is counted of an answer: that of a line, or the status and the answer of a reply."""
    first, end, body = answer.partition(b"\r\n\r\n")
    status = first.split(b" ")[1].decode() + " " if end else ""
    text = (body if end else answer).decode(errors="replace")
    if text.startswith('{"answer":'):
        words = [word.partition(":")[2] for word in text.replace('"', "").strip("{}").split(",")]
        return status + " ".join(word for word in words if word not in ("refused", "message"))
    return status + ("other" if end else "standing")


def written_run(chance, number, met):
    """The store and the steps of a run."""
    store = "memory" if number % 3 == 2 else "database"
    writing = Writing(chance, met, store == "database")
    writing.lines(chance.randrange(100, 300))
    for _ in range(chance.randrange(2, 5)):
        if store == "database":
            writing.messages(chance.randrange(50, 200))
        writing.lines(chance.randrange(100, 300))
    if number % 4 == 0:
        writing.many_attempts()
    if store == "database":
        writing.everything()
    return store, writing.steps


def pairs():
    """Each request with each answer that it can have, but an upload with TooLarge: no line is so long."""
    answers = {do: ("accepted", *(rules.NAME_OF[it] for it in (1, 2, *row))) for do, row in rules.REFUSALS_OF.items()}
    return [f"{do}:{it}" for do, its in answers.items() for it in its if it != "TooLarge"]


def wanted():
    """What runs have to meet: each status, what asks nothing, and each pair of a request and an answer."""
    names = [name for name in STATUS if isinstance(name, str)]
    return [*map(str, PHRASES), *names, "already", *pairs()]
