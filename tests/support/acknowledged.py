"""Claims and uploads that an index acknowledged, and what a report has to say of them."""
import http.client

from support.serving import is_accepted

MOST_BYTES = 3_000


class Acknowledged:
    """What was asked of an index: by name, the bytes of its one file, and what is known of each."""

    def __init__(self, chance):
        self.chance, self.next = chance, 0
        # names and files that were answered as accepted; what is under way, or was as the program was killed
        self.names, self.files, self.under_way, self.refused = set(), {}, None, []

    def go_on(self, index):
        """Claims and uploads until the program is gone."""
        try:
            while not self.refused:
                name, body = f"k{self.next}", self.chance.randbytes(self.chance.randrange(MOST_BYTES))
                self.next += 1
                self.under_way = name, None
                self.take(index.claim(name))
                self.names.add(name)
                self.under_way = name, body
                self.take(index.upload(name, f"{name}-1.0.tar.gz", body))
                self.files[name] = body
                self.under_way = None
        except (OSError, http.client.HTTPException):
            pass

    def take(self, reply):
        """A reply that came whole has to say that the request was accepted."""
        if not is_accepted(reply):
            self.refused.append(reply)
            raise OSError

    def difference(self, rows):
        """What the rows of a report have otherwise than they have to be. What was under way may be there or not."""
        name, body = self.under_way or (None, None)
        if name in rows:
            self.names.add(name)
            if body is not None and rows[name] == (1, len(body)):
                self.files[name] = body
        wanted = {it: (1, len(self.files[it])) if it in self.files else (0, 0) for it in self.names}
        return {it: (wanted.get(it), rows.get(it)) for it in {*wanted, *rows} if wanted.get(it) != rows.get(it)}

    def lost(self, index, names=None):
        """The files whose bytes the index does not serve as they were."""
        asked = self.files if names is None else names
        return [it for it in asked if index.ask("GET", f"/files/{it}/{it}-1.0.tar.gz")[2] != self.files[it]]


def report_rows(report):
    """By name: the number of its undeleted files, and its charge."""
    cut = [line.split() for line in report.decode().splitlines()]
    return {name: (int(live), int(charge)) for name, _, live, charge, _ in cut}
