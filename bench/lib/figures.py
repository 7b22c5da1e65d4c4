"""How the figures of bench are printed: each on a line, with the goal that it has, and the load beside it."""
import os
import statistics

ROUNDS = 5
# what was printed, for the page
PRINTED = []


def line(name, *parts):
    PRINTED.append(f"{name:<13} {'   '.join(parts)}".rstrip())
    print(PRINTED[-1], flush=True)


def goal(value, least=None, most=None):
    """A goal, and whether this value meets it."""
    is_met = value >= least if most is None else value <= most
    wanted = f"≥{least:,}" if most is None else f"≤{most:,}"
    return f"goal {wanted}, {'met' if is_met else 'missed'}"


def load():
    return f"load {os.getloadavg()[0]:.1f}"


def median(measure, *words):
    """The median of ROUNDS measurements, each of which takes its number after these words."""
    return statistics.median(measure(*words, number) for number in range(ROUNDS))


def memory_of(process, row):
    """A row of the memory that a process takes, as VmHWM for the most that was resident, in KiB."""
    with open(f"/proc/{process.pid}/status") as kept:
        return next(int(line.split()[1]) for line in kept if line.startswith(f"{row}:"))


def processor_time(process):
    """The seconds of a processor that a process of one thread has taken."""
    with open(f"/proc/{process.pid}/schedstat") as kept:
        return int(kept.read().split()[0]) / 1e9
