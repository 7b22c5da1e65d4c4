"""No control character of the command line or of a database is printed on standard error as it is: it would steer a
terminal or begin a line of its own."""
import unicodedata

import pytest
from support.running import by_sqlite
from support.subcommands import NO_ADDRESS, WORKING, End, words_of

# a line feed, what clears a terminal, what turns back over a line, and the like
CONTROLS = ("\nindex: ", "\x1b[2J", "\r", "\x08", "\x07", "\t", "\x01", "\x7f", "\x9b2J", "\x85")
NAMED = pytest.mark.parametrize("control", CONTROLS, ids=lambda it: f"{ord(it[0]):x}")


def escaped(text):
    """A text as it is printed, with the number of each control character."""
    return "".join(f"\\u{{{ord(it):x}}}" if is_control(it) else it for it in text)


def is_control(character):
    return unicodedata.category(character) == "Cc"


def told(subject, cause, name="Store"):
    """The end of this name, whose second line is the last."""
    return End(1, b"", f"index: {name}\nindex: {escaped(subject)}: {escaped(cause)}\n".encode())


@NAMED
@pytest.mark.parametrize("job", WORKING)
def test_a_path_is_printed_without_controls(end, folder, control, job):
    path = f"{folder}/é{control}.db"
    assert end(*words_of(job, path)) == told(path, "no such file")


@NAMED
def test_the_name_of_a_table_is_printed_without_controls(end, index_file, control):
    table = f"b{control}é"
    by_sqlite(index_file, f'CREATE TABLE "{table}" (id INTEGER PRIMARY KEY)')
    assert end("check", "--db", index_file) == told(index_file, f"an object that no index has: {table}")


@NAMED
def test_an_address_is_printed_without_controls(end, index_file, control):
    address = f"nowhere{control}é"
    words = "serve", "--db", index_file, NO_ADDRESS[0], address, *NO_ADDRESS[2:]
    assert end(*words) == told(address, "not an IP address with a port", "Listen")


@NAMED
def test_the_path_of_no_index_is_printed_without_controls(end, folder, control):
    path = f"{folder}/é{control}.db"
    open(path, "w").close()
    assert end("check", "--db", path) == told(path, "not an index", "NotAnIndex")


@NAMED
def test_a_mistake_is_printed_with_its_line_feeds_alone(end, control, looked):
    word = f"a{control}b"
    for words in ([word], ["check", word], ["apply", f"--{word}"], ["check", "--db", "x", "--db", word],
                  ["serve", "--db", "x", "--listen", "y", "--requests", word], ["init", "--db", "x", f"--user={word}"]):
        ended = end(*words)
        said = ended.error.decode()
        is_plain = not any(is_control(it) for it in said.replace("\n", ""))
        looked(is_plain and ended.status == 2 and said.startswith("error: ") and not ended.output, words, ended)


@NAMED
def test_a_word_too_many_is_repeated_with_its_line_feeds_alone(end, control):
    word = f"a{control}b"
    repeated = "\n".join(escaped(line) for line in word.split("\n"))
    assert f"unexpected argument '{repeated}' found" in end("check", word).error.decode()
