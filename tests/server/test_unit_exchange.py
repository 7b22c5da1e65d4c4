"""How the files of an index are exchanged for others, and who is alone in a folder, without the program."""
import os

import pytest
from support.library import database, exchange
from support.library import ends as library_ends
from support.planted import catches
from support.unit import raises, with_time

Refused = library_ends.Refused


def test_an_exchange_keeps_all_old_files_and_takes_the_database_first(tmp_path, monkeypatch):
    db, order = str(tmp_path / "index.db"), []
    for end in database.ENDS:
        with open(db + end, "w") as made:
            made.write(f"old{end}")
    (tmp_path / "made").write_text("new")
    for name in ("mkdir", "link", "remove", "rename"):
        real = getattr(os, name)
        monkeypatch.setattr(exchange.os, name,
                            lambda *it, name=name, real=real: (order.append((name, it[0])), real(*it)))
    monkeypatch.setattr(exchange, "sync", lambda path: order.append(("sync", os.path.realpath(path))))
    exchange.exchange(db, str(tmp_path / "made"), str(tmp_path / "aside"), "of a copy")
    aside = str(tmp_path / "aside")
    assert order == [("mkdir", aside), ("sync", f"{aside}/unfinished"), *(("link", db + it) for it in database.ENDS),
                     ("sync", aside), *(("remove", db + it) for it in database.ENDS),
                     ("rename", str(tmp_path / "made"))]
    assert (tmp_path / "aside" / "unfinished").read_text() == "of a copy"
    assert (tmp_path / "index.db").read_text() == "new" and not os.path.exists(f"{db}-wal")
    assert [(tmp_path / "aside" / f"index.db{it}").read_text() for it in database.ENDS] == [
        f"old{it}" for it in database.ENDS]
    assert (tmp_path / "aside").stat().st_mode & 0o777 == 0o700


@catches("server/lib/package_index/exchange.py", "    with suppress(OSError):",
         "    shutil.rmtree(aside); os.mkdir(aside)",
         ("server/lib/package_index/exchange.py", "        sync(os.path.dirname(db))", "    sync(os.path.dirname(db))"))
def test_names_that_come_back_are_on_the_disk_before_the_others_go(tmp_path, monkeypatch):
    """After a loss of power in between, the old database would have no name at all."""
    aside, order = tmp_path / "aside", []
    aside.mkdir()
    (aside / "index.db").write_text("old")
    monkeypatch.setattr(exchange, "sync", lambda path: order.append((path, (aside / "index.db").exists())))
    assert exchange.put_names_back(str(tmp_path / "index.db"), str(aside))
    assert order == [(str(tmp_path), True)] and os.listdir(tmp_path) == ["index.db"]


def test_an_exchange_that_fails_at_first_changes_nothing(tmp_path, monkeypatch):
    (tmp_path / "index.db").write_text("old")
    monkeypatch.setattr(exchange, "sync", raises(OSError("full")))
    with pytest.raises(OSError, match="full"):
        exchange.exchange(str(tmp_path / "index.db"), str(tmp_path / "made"), str(tmp_path / "aside"), "")
    assert os.listdir(tmp_path) == ["index.db"] and os.stat(tmp_path / "index.db").st_nlink == 1


@pytest.mark.parametrize("gone", range(7))
def test_names_that_were_taken_away_come_back_and_the_database_last(tmp_path, monkeypatch, gone):
    db, aside, order, link = str(tmp_path / "index.db"), tmp_path / "aside", [], os.link
    aside.mkdir()
    for at, end in enumerate(database.ENDS):
        (aside / f"index.db{end}").write_text(f"old{end}")
        if at >= gone:
            os.link(aside / f"index.db{end}", db + end)
    monkeypatch.setattr(exchange.os, "link", lambda *it: (order.append(it[1]), link(*it)))
    assert exchange.put_names_back(db, str(aside))
    assert order == [db + it for it in reversed(database.ENDS[:gone])] and not aside.exists()
    for end in database.ENDS:
        with open(db + end) as kept:
            assert kept.read() == f"old{end}" and os.stat(db + end).st_nlink == 1


@catches("server/lib/package_index/exchange.py", '        if is_there(f"{made}{VOLUME}"):',
         '        os.rename(made, db + "-new")',
         ("server/lib/package_index/exchange.py", "        os.rename(made, db)", '        os.rename(db + "-new", db)'),
         ("server/lib/package_index/exchange.py", '            os.rename(f"{made}{VOLUME}", f"{db}{VOLUME}")',
          '        os.rename(f"{made}{VOLUME}", f"{db}{VOLUME}")'))
def test_the_volume_of_a_copy_is_in_place_before_its_database(tmp_path, monkeypatch):
    """A start in between finds no database, and none whose bytes are another's."""
    order, rename = [], os.rename
    for name in ("made", "made-volume"):
        (tmp_path / name).write_text(f"new {name}")
    monkeypatch.setattr(exchange.os, "rename", lambda *it: (order.append(os.path.basename(it[1])), rename(*it)))
    exchange.exchange(str(tmp_path / "index.db"), str(tmp_path / "made"), str(tmp_path / "aside"), "")
    assert order == ["index.db-volume", "index.db"]
    assert (tmp_path / "index.db-volume").read_text() == "new made-volume"


def test_a_database_without_a_volume_is_locked_in_no_other_folder(tmp_path, monkeypatch):
    monkeypatch.setattr(exchange, "PATIENCE", 0)
    for name in ("a", "b"):
        (tmp_path / name).mkdir()
    (tmp_path / "a" / "x.db-volume").touch()
    with exchange.alone(str(tmp_path / "a"), "it"):
        with exchange.alone_with_volume(f"{tmp_path}/a/y.db", f"{tmp_path}/b"):
            pass
        with pytest.raises(Refused, match=f"a: another {exchange.AT_WORK} is at work there"):
            with exchange.alone_with_volume(f"{tmp_path}/a/x.db", f"{tmp_path}/b"):
                pass
        with exchange.alone_with_volume(f"{tmp_path}/a/x.db", f"{tmp_path}/a"):
            pass


def test_no_name_comes_back_beside_another_database(tmp_path):
    aside = tmp_path / "aside"
    aside.mkdir()
    for path in (tmp_path / "index.db", aside / "index.db", aside / "index.db-wal"):
        path.write_text("")
    assert not exchange.put_names_back(str(tmp_path / "index.db"), str(aside))
    assert sorted(os.listdir(tmp_path)) == ["aside", "index.db"] and len(os.listdir(aside)) == 2


@catches("server/lib/package_index/exchange.py", "time.monotonic() + patience", "time.monotonic()")
def test_whoever_has_patience_waits_until_the_folder_is_free(tmp_path, monkeypatch):
    (tmp_path / "x.db-volume").touch()
    (tmp_path / "copies").mkdir()
    seconds, other = [], exchange.alone(str(tmp_path), "it")
    with_time(monkeypatch, exchange, monotonic=lambda: float(len(seconds)),
              sleep=lambda it: (seconds.append(it), len(seconds) == 5 and other.__exit__(None, None, None)))
    other.__enter__()
    with pytest.raises(Refused, match="another it is at work there"), exchange.alone(str(tmp_path), "it", 3):
        pass
    assert seconds == [exchange.PAUSE] * 3
    with exchange.alone_with_volume(f"{tmp_path}/x.db", f"{tmp_path}/copies"):
        assert len(seconds) == 5


def test_only_one_is_at_work_in_a_folder_and_the_next_when_it_ended(tmp_path):
    for _ in range(2):
        with exchange.alone(str(tmp_path), "it"):
            with pytest.raises(Refused, match=f"{tmp_path}: another it is at work there"):
                with exchange.alone(str(tmp_path), "it"):
                    pass
