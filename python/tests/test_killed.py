"""Runs of --batch that are killed, and resumed."""
import os
import pathlib
import random
import signal
import subprocess
import sys
import tarfile
import tempfile
import time
import unittest

from test_command import run
from test_stream import png


class Killed(unittest.TestCase):
    def setUp(self):
        folder = tempfile.TemporaryDirectory()
        self.addCleanup(folder.cleanup)
        self.room = pathlib.Path(folder.name)

    @unittest.skipIf(os.name == "nt", "processes are ended in another way")
    def test_a_batch_that_is_killed_is_resumed(self):
        count, numbers = 4000, random.Random(1)
        (self.room / "list").write_text("".join(f"label {k}\n" for k in range(count)))
        for words in (["--shard", "700"], ["--tar", "--shard", "150"]):
            out = self.room / words[0][2:]
            command = [sys.executable, "-B", "-m", "qrproved", "--batch", self.room / "list", "-o", out, "-s", "1", "--jobs", "2", "--resume", *words]
            for _ in range(3):
                before = self.count(out)
                with subprocess.Popen(command, start_new_session=True, stdout=subprocess.DEVNULL, stderr=subprocess.DEVNULL) as started:
                    while started.poll() is None and self.count(out) == before:
                        time.sleep(0.01)
                    time.sleep(0.1 * numbers.random())
                    started.kill()
                deadline = time.monotonic() + 20
                while self.is_any_left(started.pid):
                    if time.monotonic() > deadline:
                        os.killpg(started.pid, signal.SIGKILL)
                        self.fail("processes are left over")
                    time.sleep(0.02)
            self.assertEqual(run(*command[4:]), (b"", ""))
            wanted = {f"{k + 1:08}.png": png(f"label {k}") for k in range(count)}
            found = {}
            if words[0] == "--tar":
                for path in out.iterdir():
                    with tarfile.open(path) as archive:
                        found.update((it.name, archive.extractfile(it).read()) for it in archive)
            else:
                found = {it.name: it.read_bytes() for it in out.rglob("*") if it.is_file()}
            self.assertEqual(found.keys(), wanted.keys())
            self.assertEqual(found, wanted)

    @staticmethod
    def count(folder):
        return sum(1 for it in folder.rglob("*") if it.is_file())

    @staticmethod
    def is_any_left(group):
        try:
            os.killpg(group, 0)
        except ProcessLookupError:
            return False
        return True


if __name__ == "__main__":
    unittest.main()
