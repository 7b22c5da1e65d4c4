"""What every test may ask for: the built program, folders, an index that serves, chance by a seed, and a count of what
was looked at."""
import os
import random
import signal
import sys
import tempfile

import pytest
import skips
from hypothesis import HealthCheck, settings

sys.dont_write_bytecode = True
from support import durations, needed
from support.options import add_options, is_of_share
from support.places import is_program
from support.set_up import is_gate, look_in_sbin
from support.volumes import WITH_VOLUME

MEMORY = "/dev/shm"
# of what is random, so many rounds are not slow
QUICK_ROUNDS = 3
# of properties: a busy machine may stop any example for a second, and what one run has found is not another's
settings.register_profile("index", deadline=None, database=None, suppress_health_check=[HealthCheck.too_slow])
settings.load_profile("index")


def pytest_addoption(parser):
    add_options(parser)


@pytest.hookimpl(tryfirst=True)
def pytest_configure(config):
    look_in_sbin()
    # as they are for what is started in the background or by nohup: what tests start could never be interrupted
    if signal.getsignal(signal.SIGINT) == signal.SIG_IGN:
        signal.signal(signal.SIGINT, signal.default_int_handler)
    if signal.getsignal(signal.SIGHUP) == signal.SIG_IGN:
        signal.signal(signal.SIGHUP, signal.SIG_DFL)
    # each worker of xdist draws a seed of its own otherwise
    given = getattr(config, "workerinput", {})
    config.seed = given.get("seed", config.option.seed)
    # what hypothesis reads behind this
    config.option.hypothesis_seed = config.option.hypothesis_seed or str(config.seed)
    # and reads the command line again, which does not have what is set below for the controller
    config.option.loadgroup = given.get("dist") == "loadgroup"


@pytest.hookimpl(tryfirst=True)
def pytest_cmdline_main(config):
    """Workers get the tests of one group together, so that what they share is made once."""
    if getattr(config.option, "numprocesses", None) and config.option.dist == "no":
        config.option.dist = "loadgroup"


@pytest.hookimpl(optionalhook=True)
def pytest_configure_node(node):
    node.workerinput.update(seed=node.config.seed, dist=node.config.option.dist)


def pytest_report_header(config):
    return f"seed {config.seed}, program {os.path.abspath(config.option.program)}"


def pytest_generate_tests(metafunc):
    """A test that asks for `round_number` is one test for each of --rounds, or of the ROUNDS of its file. All but the
    first of them are slow together."""
    if "round_number" in metafunc.fixturenames:
        rounds = range(1, (metafunc.config.option.rounds or getattr(metafunc.module, "ROUNDS", 20)) + 1)
        metafunc.parametrize("round_number", [
            pytest.param(it, marks=pytest.mark.slow if it > QUICK_ROUNDS else ()) for it in rounds])


def room_of(item):
    """The room that a test stands in."""
    return item.nodeid.split("::")[0].rpartition("/")[0].rpartition("/")[2]


@pytest.hookimpl(tryfirst=True)
def pytest_runtest_setup(item):
    """With --volume each index of some rooms has one: before a fixture makes it."""
    from support.serving import make_with_volume
    make_with_volume(item.config.option.volume and room_of(item) in WITH_VOLUME)


def needs_program(item):
    return "program" in getattr(item, "fixturenames", ())


def in_turn(config, items):
    """All but those that are marked as `by_turns` or `by_hand` and not asked for: by the option of that name, or the
    first by --share or --alone; and those that --needs leaves out. Those of a file that have no parameters take their
    turn together: they share what takes long."""
    def is_left_out(it, marker):
        found = it.get_closest_marker(marker)
        return found and not getattr(config.option, found.args[0])

    def has_its_turn(it):
        return config.option.alone or is_of_share(it.name if hasattr(it, "callspec") else it.path.name,
                                                  config.option.share)

    def is_of_kind(it):
        return not config.option.needs or needs_program(it) == (config.option.needs == "program")

    other = "one_file" if config.option.volume else "with_volume"
    return {it for it in items if is_of_kind(it) and not it.get_closest_marker(other) and not is_left_out(it, "by_hand")
            and (not is_left_out(it, "by_turns") or has_its_turn(it))}


def limit_of(item):
    """How many seconds a test may take."""
    found = item.get_closest_marker("timeout")
    return found.args[0] if found else float(item.config.getini("timeout"))


@pytest.hookimpl(trylast=True)
def pytest_collection_modifyitems(config, items):
    """A program that is missing is told once, before any test begins: last, so that `-k` has chosen. Tests that run by
    turns are left out if not asked for. Workers begin with what may take longest: else one of them goes on with it
    alone at the end."""
    chosen = in_turn(config, items)
    left_out = [it for it in items if it not in chosen]
    items[:] = [it for it in items if it in chosen]
    config.hook.pytest_deselected(items=left_out)
    if hasattr(config, "workerinput"):
        items.sort(key=limit_of, reverse=True)
    needs = [it for it in items if needs_program(it)]
    # a worker of xdist can only let tests fail
    if needs and not config.option.collectonly and not hasattr(config, "workerinput"):
        if not is_program(config.option.program):
            raise pytest.UsageError(f"{len(needs)} tests need a program: {no_program(config)}; `-k test_unit_` asks "
                                    "for none")


def no_program(config):
    return (f"no program is at {config.option.program}. `tools/build` proves and builds it, `tools/try` builds it "
            "without a proof; --program PATH names another")


@pytest.fixture(scope="session")
def program(request, pytestconfig):
    """The path of the built program."""
    if not is_program(pytestconfig.option.program):
        request.session.shouldfail = no_program(pytestconfig)
        pytest.fail(no_program(pytestconfig), pytrace=False)
    return os.path.abspath(pytestconfig.option.program)


@pytest.fixture
def chance(request, pytestconfig):
    """Numbers at random that depend on the seed and on the test's name, and not on which tests run before it."""
    return random.Random(f"{pytestconfig.seed} {request.node.name}")


@pytest.fixture(autouse=True)
def usual_umask():
    """A program whose `main` is called in a test may set another umask: the next test does not have it."""
    before = os.umask(0o022)
    yield
    os.umask(before)


@pytest.fixture
def folder():
    """A folder for one test, in memory if there is a file system for that: a sync takes no time there."""
    with tempfile.TemporaryDirectory(dir=MEMORY if os.access(MEMORY, os.W_OK) else None) as made:
        yield made


@pytest.fixture(scope="module")
def shared_folder():
    """The same for all tests of a file."""
    with tempfile.TemporaryDirectory(dir=MEMORY if os.access(MEMORY, os.W_OK) else None) as made:
        yield made


@pytest.fixture
def index_file(program, folder):
    """A new index in a file, which nobody serves."""
    from support.serving import make_index
    return make_index(program, f"{folder}/index.db")


@pytest.fixture
def index(program, index_file):
    """A new index that serves on a port of its own. The port is the kernel's choice (`--listen 127.0.0.1:0`), so tests
    side by side never meet; the server is ended by its pid."""
    from support.serving import Index
    with Index(program, path=index_file) as serving:
        yield serving


@pytest.fixture
def looked(request):
    """Counts what a test looked at, for a test that looks at many things: `looked(condition, what)` fails it at the
    first that is not so."""
    def look(is_well, *seen):
        look.count += 1
        assert is_well, seen

    look.count = 0
    yield look
    request.node.user_properties.append(("looked", look.count))


def refuse_skip(report):
    """In the gate, has a test that was skipped fail if tests/skips.txt does not have why."""
    if is_gate() and report.skipped and not hasattr(report, "wasxfail"):
        reason = needed.reason_of(report.longrepr)
        if not skips.may_be_skipped(report.longrepr[0], reason):
            report.outcome = "failed"
            report.longrepr = f"{report.longrepr[0]}: skipped, and not for a reason in {skips.SKIPS}: {reason}"


@pytest.hookimpl(hookwrapper=True)
def pytest_runtest_makereport():
    made = yield
    refuse_skip(made.get_result())


@pytest.hookimpl(hookwrapper=True)
def pytest_make_collect_report():
    made = yield
    refuse_skip(made.get_result())


def pytest_runtest_logreport(report):
    """Of the controller where there are workers: a property comes with the report of each test."""
    name = durations.name_of(report.nodeid)
    SECONDS[name] = SECONDS.get(name, 0.0) + report.duration
    if report.when == "call" or report.outcome != "passed":
        COUNTS[report.outcome] = COUNTS.get(report.outcome, 0) + 1
    if report.skipped and not hasattr(report, "wasxfail"):
        reason = needed.reason_of(report.longrepr)
        REASONS[reason] = REASONS.get(reason, 0) + 1
    if report.when == "teardown":
        # a test that counts nothing looked at one thing
        COUNTS["looked"] += dict(report.user_properties).get("looked", 1)


COUNTS = {"looked": 0}
# how many tests were left out for each reason
REASONS: dict = {}
SECONDS: dict = {}


def pytest_terminal_summary(terminalreporter, config):
    if not config.option.collectonly:
        terminalreporter.write_line(f"{COUNTS['looked']} things were looked at")
    if REASONS and not hasattr(config, "workerinput"):
        terminalreporter.write_line(needed.left_out(REASONS))
    if SECONDS and not hasattr(config, "workerinput"):
        durations.write(durations.TESTS, SECONDS)


@pytest.hookimpl(trylast=True)
def pytest_unconfigure(config):
    """The last line, as the gate adds it up: pytest's own names failures first, and has no `0 failed`."""
    if not hasattr(config, "workerinput") and not config.option.collectonly and not config.option.help:
        print(f"{COUNTS.get('passed', 0)} passed, {COUNTS.get('failed', 0)} failed")
