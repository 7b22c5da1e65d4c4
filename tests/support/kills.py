"""Kills of the program, each at a random moment of its run."""
import subprocess
import time
from dataclasses import dataclass, field

from support.judge import Judge, copy_index
from support.running import run

# so many kills are made, the last of them at once: a machine may be less busy than when it was measured
TRIALS = 20


@dataclass
class Job:
    """A subcommand that is killed: what it is given, and the index that it finds, or none."""
    words: tuple
    first: str = ""
    given: bytes = b""


@dataclass
class Killing:
    """The program, the judge of what has to be there, and how long each job lasts, which is measured once."""
    program: str
    judge: Judge
    lasting: dict = field(default_factory=dict)

    def lasts(self, job, path):
        """How many seconds a whole run takes, and a little more: so some kills come too late."""
        if job.words[0] not in self.lasting:
            took = []
            for _ in range(3):
                copy_index(job.first, path)
                begun = time.monotonic()
                run(self.program, job.words[0], "--db", path, *job.words[1:], given=job.given)
                took.append(time.monotonic() - begun)
            self.lasting[job.words[0]] = 1.3 * min(took)
        return self.lasting[job.words[0]]

    def outputs(self, job, path, chance):
        """What runs printed: those whose kill came too late, each earlier than the one before, the first that was
        killed in time, and one that was not killed. Each leaves its index at the path until the next."""
        longest, is_killed = self.lasts(job, path), False
        for _ in range(TRIALS):
            if not is_killed:
                copy_index(job.first, path)
                longest = chance.uniform(0, longest)
                status, output = self.killed(job, path, longest)
                is_killed = status != 0
                yield output
        assert is_killed, f"{TRIALS} kills came too late"
        copy_index(job.first, path)
        yield self.killed(job, path, None)[1]

    def killed(self, job, path, seconds):
        """The status and the output of a run that is killed after so many seconds, or never."""
        with open(f"{path}.given", "w+b") as stdin, open(f"{path}.output", "w+b") as output:
            stdin.write(job.given)
            stdin.flush()
            stdin.seek(0)
            words = [self.program, job.words[0], "--db", path, *job.words[1:]]
            with subprocess.Popen(words, stdin=stdin, stdout=output, stderr=output) as killed:
                if seconds is None:
                    killed.wait(60)
                else:
                    time.sleep(seconds)
                    killed.kill()
            output.seek(0)
            return killed.returncode, output.read()
