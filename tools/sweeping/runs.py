"""One run of the program, and what its routers ended with."""

import os
import subprocess
from dataclasses import dataclass

from library.reading import read_run
from library.routes import holdings_words
from library.states import guest_of
from library.tool import BadInput

from .jobs import Job

OK, CUT = 0, 4


@dataclass(frozen=True)
class Outcome:
    """What a run ended with: lines of words, `ROUTER: ROUTE`, or why there is none."""

    place: int
    seed: int
    factor: str
    lines: tuple[str, ...]


def trace_of(job: Job) -> tuple[int, bytes, str]:
    """The program's status, output and line of fault on the job's case."""
    try:
        done = subprocess.run([job.program, "lockstep"], input=job.case, capture_output=True, check=False)
    except OSError as error:
        where = f"{job.program} on {os.uname().nodename}"
        raise BadInput(f"can't run {where}: {error.strerror}; PROGRAM names the program") from error
    return done.returncode, done.stdout, done.stderr.decode(errors="replace").strip()


def outcome_of(job: Job) -> Outcome:
    """Runs the job's case; what the routers ended with by their routes."""
    status, text, fault = trace_of(job)
    return Outcome(job.place, job.seed, job.factor, tuple(ending(status, text, fault)))


def ending(status: int, text: bytes, fault: str) -> list[str]:
    """What a run ended with, a line each."""
    if status == CUT:
        return ["the run was cut at 200,000 rows"]
    if status != OK:
        return [f"status {status}: {fault}"]
    run = read_run(text, need="trace")
    return [f"{run.network.names[state.router]}: {words}" for state in run.states
            for words in holdings_words(run.network, state.router, guest_of(run.network, state))]
