"""tools/sweep: runs grouped by what the routers end with, by any number of workers and on a Dask cluster."""

import os
import shutil
import signal
import socket
import subprocess
import tempfile
import time
import unittest

from helping import example, needs_defined, tool

# Two ways of one metric to a's network: which of them d takes hangs on the order in which they come.
DIAMOND = b"""defined 1
period 1000
groups 40
seed 0
router a rip
router b rip
router c rip
router d rip
link a b 20 1
link a c 20 1
link b d 20 1
link c d 20 1
prefix a 10.1.0.0/16 1
feed
end
"""
WORDS = ("--seeds", "0-19,50", "--factors", "1,0.5")
START_SECONDS = 120


@needs_defined
class Sweeps(unittest.TestCase):
    """The table of a case."""

    def table(self, *words: str, text: bytes = DIAMOND) -> str:
        """The table."""
        done = tool("sweep", *words, text=text)
        self.assertEqual(done.returncode, 0, done.stderr.decode())
        return done.stdout.decode()

    def test_groups(self):
        """The routes of d are of two kinds, and the least seed of each is told."""
        text = self.table(*WORDS)
        self.assertIn("42 runs: 2 groups by what the routers end with", text)
        self.assertIn("d: 10.1.0.0/16 metric 3 via b", text)
        self.assertIn("d: 10.1.0.0/16 metric 3 via c", text)
        self.assertIn("ties left out:", text)
        rows = [line.split() for line in text.splitlines()[3:5]]
        self.assertEqual(sum(int(row[1]) for row in rows), 42)

    def test_one_group(self):
        """A case whose end doesn't hang on the order."""
        self.assertIn("5 runs: all end alike", self.table("--seeds", "0-4", text=example("two_routers", ".case")))

    def test_workers(self):
        """The table is the same whatever the number of workers."""
        one = self.table(*WORDS, "--workers", "1")
        for workers in ("2", "5"):
            self.assertEqual(self.table(*WORDS, "--workers", workers), one)

    def test_bad_inputs(self):
        """Options and programs that can't be."""
        for words, told in ((("--seeds", "9-1"), "a range goes up"), (("--seeds", "x"), "seeds are numbers"),
                            (("--factors", "0"), "above 0"), (("--factors", "1/0"), "factors are numbers"),
                            (("--factors", "1000000"), "above 1,000,000"), (("--workers", "0"), "at least 1")):
            done = tool("sweep", *words, text=DIAMOND)
            self.assertEqual((done.returncode, told in done.stderr.decode()), (1, True), done.stderr)


@needs_defined
@unittest.skipUnless(shutil.which("dask-worker"), "Dask isn't installed (package python3-distributed)")
class Cluster(unittest.TestCase):
    """The same table on a Dask cluster of two workers on loopback."""

    @classmethod
    def setUpClass(cls):
        """Starts a scheduler and two workers."""
        cls.folder = tempfile.TemporaryDirectory()
        with socket.socket() as taken:
            taken.bind(("127.0.0.1", 0))
            port = taken.getsockname()[1]
        cls.address = f"tcp://127.0.0.1:{port}"
        cls.started = [cls.start("dask-scheduler", "--host", "127.0.0.1", "--port", str(port), "--no-dashboard")]
        cls.await_port(port)
        for name in ("one", "two"):
            cls.started.append(cls.start("dask-worker", cls.address, "--no-dashboard", "--nthreads", "1", "--no-nanny",
                                         "--local-directory", os.path.join(cls.folder.name, name)))

    @classmethod
    def start(cls, *words: str) -> subprocess.Popen:
        """Starts a program of Dask's, outside the repository's folders."""
        return subprocess.Popen(words, cwd=cls.folder.name, stdout=subprocess.DEVNULL, stderr=subprocess.DEVNULL)

    @classmethod
    def await_port(cls, port: int) -> None:
        """Waits until the scheduler answers."""
        end = time.monotonic() + START_SECONDS
        while time.monotonic() < end:
            with socket.socket() as probe:
                if probe.connect_ex(("127.0.0.1", port)) == 0:
                    return
            time.sleep(0.2)

    @classmethod
    def tearDownClass(cls):
        """Ends what was started."""
        for process in reversed(cls.started):
            process.send_signal(signal.SIGTERM)
        for process in cls.started:
            process.wait(timeout=60)
        cls.folder.cleanup()

    def test_same_table(self):
        """The table of the cluster is that of this machine."""
        end = time.monotonic() + START_SECONDS
        while True:
            done = tool("sweep", *WORDS, "--scheduler", self.address, text=DIAMOND)
            if b"has no workers" not in done.stderr or time.monotonic() > end:
                break
            time.sleep(0.5)
        self.assertEqual(done.returncode, 0, done.stderr.decode())
        self.assertEqual(done.stdout, tool("sweep", *WORDS, text=DIAMOND).stdout)

    def test_a_worker_without_the_program(self):
        """A program that isn't there is told as one."""
        environment = {**os.environ, "PROGRAM": "/nowhere/defined"}
        path = os.path.join(os.path.dirname(os.path.dirname(os.path.abspath(__file__))), "sweep")
        done = subprocess.run([path, "--seeds", "0-3"], input=DIAMOND, capture_output=True, check=False,
                              env=environment)
        self.assertEqual((done.returncode, b"can't run /nowhere/defined" in done.stderr), (1, True), done.stderr)


class NoCluster(unittest.TestCase):
    """An address at which no scheduler is."""

    @unittest.skipUnless(shutil.which("dask-worker"), "Dask isn't installed (package python3-distributed)")
    def test_no_scheduler(self):
        """It is told."""
        done = tool("sweep", "--scheduler", "tcp://127.0.0.1:9", text=DIAMOND)
        self.assertEqual((done.returncode, b"no scheduler answers" in done.stderr), (1, True), done.stderr)


if __name__ == "__main__":
    unittest.main()
