"""What a crash may leave of a database, its log and its volume, made from the record of a run (record_calls).

Between two syncs of a file each range that was written may hold what was there, what was written, or anything, and the
length is any between the least and the greatest; what lies past the least may be anything. All else is as it was. A
file whose name was not synced with its folder may be gone, and one that was removed is."""
import struct
from dataclasses import dataclass

MADE, WRITTEN, CUT, SYNCED, ANSWERED, REMOVED = range(6)
DATABASE, LOG, FOLDER, OTHER, VOLUME = range(5)
FILES = DATABASE, LOG, VOLUME
SECTOR = 512
# what becomes of the writes that were not synced
HOWS = ("kept", "lost", "some", "torn", "garbled")


@dataclass(frozen=True)
class Entry:
    done: int
    file: int
    at: int
    body: bytes


def read_record(path):
    with open(path, "rb") as kept:
        record = kept.read()
    entries, at = [], 0
    while at < len(record):
        done, file, where, length = struct.unpack_from("4Q", record, at)
        at += 32
        entries.append(Entry(done, file, where, record[at:at + length]))
        at += length
    return entries


def change(content, entry):
    """Does a write or a cut to the content of a file."""
    if entry.done == CUT:
        del content[entry.at:]
        content.extend(bytes(entry.at - len(content)))
        return
    content.extend(bytes(max(0, entry.at - len(content))))
    content[entry.at:entry.at + len(entry.body)] = entry.body


class File:
    """A file as it was synced last, and what was done to it since. Without a content it is not there."""

    def __init__(self, content):
        self.content = None if content is None else bytearray(content)
        self.synced, self.done, self.has_name = content, [], content is not None

    def take(self, entry):
        if entry.done == MADE:
            self.content, self.synced, self.has_name = bytearray(), b"", False
        elif entry.done == REMOVED:
            self.content, self.synced, self.done = None, None, []
        elif entry.done == SYNCED and self.done:
            self.synced, self.done = bytes(self.content), []
        elif entry.done in (WRITTEN, CUT):
            change(self.content, entry)
            self.done.append(entry)

    def image(self, how, random):
        """One of the contents that a crash may leave, or None for no file."""
        if self.content is None or how == "kept":
            return None if self.content is None else bytes(self.content)
        if not self.has_name and random.random() < 0.5:
            return None
        if how == "lost":
            return self.synced
        if how == "some":
            return self.some(random)
        return self.torn(random, how == "garbled")

    def some(self, random):
        """Some of the writes came, each of them whole."""
        content = bytearray(self.synced)
        for entry in self.done:
            if random.random() < 0.5:
                change(content, entry)
        return bytes(content)

    def torn(self, random, is_garbled):
        """Of each write some sectors came. Where it is garbled, some of what was written is anything."""
        content, length = bytearray(self.synced), len(self.synced)
        lengths = [length]
        for entry in self.done:
            length = entry.at if entry.done == CUT else max(length, entry.at + len(entry.body))
            lengths.append(length)
            content.extend(bytes(max(0, length - len(content))))
            for at in range(0, len(entry.body), SECTOR):
                piece, begun = entry.body[at:at + SECTOR], entry.at + at
                if random.random() < 0.5:
                    content[begun:begun + len(piece)] = piece
                elif is_garbled and random.random() < 0.5:
                    content[begun:begun + len(piece)] = garbled(piece, random)
        least, most = min(lengths), max(lengths)
        if is_garbled and random.random() < 0.5:
            content[least:] = random.randbytes(len(content) - least)
        return bytes(content[:random.choice((least, most, length, random.randint(least, most)))])


def garbled(piece, random):
    """These bytes, some of which are others."""
    begun = random.randrange(len(piece))
    return piece[:begun] + random.randbytes(len(piece) - begun)


class Index:
    """A database, its log and its volume, as a run makes them."""

    def __init__(self, contents):
        self.files = {file: File(content) for file, content in zip(FILES, contents, strict=True)}

    def take(self, entry):
        if entry.file in FILES:
            self.files[entry.file].take(entry)
        elif entry.file == FOLDER and entry.done == SYNCED:
            for file in self.files.values():
                file.has_name = file.content is not None

    def image(self, how, random):
        return [file.image(how, random) for file in self.files.values()]


def images_of(first, entries, places, random):
    """For each of these places, in their order, the number of its entry, what becomes of writes, and one image."""
    index, wanted = Index(first), iter(places)
    place = next(wanted, None)
    for number, entry in enumerate(entries):
        index.take(entry)
        while place is not None and place[0] == number:
            yield number, place[1], index.image(place[1], random)
            place = next(wanted, None)


def places_of(entries):
    """Behind each entry, and each way in which writes are lost: where nothing is unsynced, one way is enough."""
    unsynced, found = dict.fromkeys(FILES, 0), []
    for number, entry in enumerate(entries):
        if entry.file in unsynced:
            unsynced[entry.file] = 0 if entry.done == SYNCED else unsynced[entry.file] + 1
        found += [(number, how) for how in (HOWS if any(unsynced.values()) else HOWS[:1])]
    return found
