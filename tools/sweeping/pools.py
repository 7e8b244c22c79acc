"""Who does the runs: the processors of this machine, or the workers of a Dask cluster. The outcomes are the same."""

import hashlib
import io
import os
import tempfile
import zipfile
from collections.abc import Callable, Iterator
from concurrent.futures import ProcessPoolExecutor, as_completed
from contextlib import contextmanager

from library.packages import load
from library.tool import TOP, BadInput

from .jobs import Job
from .runs import Outcome, outcome_of

BATCH = 16
CONNECT_SECONDS = 10
SHIPPED = (("tools", "library"), ("tools", "sweeping"), ("reference", "model"))


def outcomes_of(batch: list[Job]) -> list[Outcome]:
    """The outcomes of some runs."""
    return [outcome_of(job) for job in batch]


def batches(jobs: list[Job]) -> list[list[Job]]:
    """The jobs in pieces, each done by one worker in one go."""
    return [jobs[place:place + BATCH] for place in range(0, len(jobs), BATCH)]


def run_here(jobs: list[Job], workers: int, tell: Callable[[int], None]) -> list[Outcome]:
    """Runs all jobs on processors of this machine; `tell` is told how many more are done. In no order."""
    found: list[Outcome] = []
    with ProcessPoolExecutor(max_workers=workers) as pool:
        pieces = [pool.submit(outcomes_of, batch) for batch in batches(jobs)]
        try:
            for piece in as_completed(pieces):
                found += piece.result()
                tell(len(piece.result()))
        except BaseException:
            pool.shutdown(wait=False, cancel_futures=True)
            raise
    return found


def run_on_cluster(jobs: list[Job], address: str, tell: Callable[[int], None]) -> list[Outcome]:
    """Runs all jobs on the workers of the cluster whose scheduler has this address. In no order."""
    distributed = load("distributed", "python3-distributed")
    found: list[Outcome] = []
    with client_of(distributed, address) as client:
        send_code(client)
        pieces = client.map(outcomes_of, batches(jobs), pure=False)
        for _, outcomes in distributed.as_completed(pieces, with_results=True):
            found += outcomes
            tell(len(outcomes))
    return found


@contextmanager
def client_of(distributed, address: str) -> Iterator:
    """A client of the cluster; raises `BadInput` if there is none or it has no workers."""
    try:
        client = distributed.Client(address, timeout=CONNECT_SECONDS)
    except (OSError, ValueError, TimeoutError) as error:
        raise BadInput(f"no scheduler answers at {address}: {error}") from error
    try:
        if not client.scheduler_info()["workers"]:
            raise BadInput(f"the scheduler at {address} has no workers")
        yield client
    finally:
        client.close()


def send_code(client) -> None:
    """Sends the workers the code of a run, as a zip file that stays on their path.

    Its name tells its contents, so a worker takes a newer code under a new name.
    """
    data = zipped()
    with tempfile.TemporaryDirectory() as folder:
        path = os.path.join(folder, f"sweep_{hashlib.sha256(data).hexdigest()[:16]}.zip")
        with open(path, "wb") as file:
            file.write(data)
        client.upload_file(path)


def zipped() -> bytes:
    """The packages that a run needs, as the bytes of a zip file."""
    held = io.BytesIO()
    with zipfile.ZipFile(held, "w", zipfile.ZIP_DEFLATED) as archive:
        for top, package in SHIPPED:
            root = os.path.join(TOP, top)
            for folder, _, files in sorted(os.walk(os.path.join(root, package))):
                for name in sorted(files):
                    if name.endswith(".py"):
                        path = os.path.join(folder, name)
                        archive.write(path, os.path.relpath(path, root))
    return held.getvalue()
