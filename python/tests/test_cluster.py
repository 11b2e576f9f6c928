"""The examples for several machines, as far as they run on one: Dask if Debian's python3-distributed is installed, GNU parallel, and the
function for Spark."""
import importlib.util
import os
import pathlib
import shutil
import subprocess
import sys
import tarfile
import tempfile
import unittest

import qrproved

EXAMPLES = pathlib.Path(__file__).resolve().parents[2] / "examples/cluster"
COUNT = 2300


def has(name):
    return importlib.util.find_spec(name) is not None


@unittest.skipUnless(EXAMPLES.exists(), "the examples are not beside the package")
class Cluster(unittest.TestCase):
    def setUp(self):
        folder = tempfile.TemporaryDirectory()
        self.addCleanup(folder.cleanup)
        self.room = pathlib.Path(folder.name)
        lines = [f"label {k}\n" for k in range(1, COUNT + 1)]
        lines[6], lines[7] = "\n", "a" * 3000 + "\n"
        (self.room / "list").write_text("".join(lines))

    def run_it(self, *words, **more):
        return subprocess.run([*map(str, words)], capture_output=True, text=True, timeout=300, cwd=self.room,
                              env={**os.environ, "PYTHONPATH": str(pathlib.Path(qrproved.__file__).parents[1])}, **more)

    def of_archives(self, **options):
        found = {}
        for path in (self.room / "out").glob("*.tar"):
            with tarfile.open(path) as archive:
                found.update((it.name, archive.extractfile(it).read()) for it in archive)
        self.assertEqual(found.keys(), {f"{k:08}.png" for k in range(1, COUNT + 1) if k not in (7, 8)})
        for k in (1, 9, 1000, 1001, COUNT):
            self.assertEqual(found[f"{k:08}.png"], qrproved.encode(f"label {k}", level="m").png(**options), k)

    @unittest.skipUnless(has("distributed"), "there is no python3-distributed")
    def test_dask(self):
        for _ in range(2):
            ran = self.run_it(sys.executable, "-B", EXAMPLES / "dask_labels.py", self.room / "list", self.room / "out")
            self.assertEqual((ran.returncode, [it[:29] for it in ran.stderr.splitlines() if it.startswith("line ")]), (1, ["line 8: the input has 3,000 b"]), ran.stderr)
            self.of_archives(scale=4)
        self.assertEqual({it.name for it in (self.room / "out").iterdir()}, {"00000001.tar", "00000001.tar.faults", "00001001.tar", "00002001.tar"})

    @unittest.skipUnless(shutil.which("parallel"), "there is no GNU parallel")
    def test_gnu_parallel(self):
        (line,) = [it.strip() for it in (EXAMPLES / "README.md").read_text().splitlines() if it.startswith("    parallel ")]
        command = line.replace("10000", "1000").replace("9999", "999").replace("--tar", "--tar --shard 1000 -l M").replace("labels.txt", "list")
        command = command.replace("qrproved", f"{sys.executable} -B -m qrproved").replace("-o labels", "-o out")
        ran = self.run_it("sh", "-c", command)
        self.assertEqual((ran.returncode, [it for it in ran.stderr.splitlines() if "line 8: the input has 3,000 bytes" in it] != []), (1, True), ran.stderr)
        self.of_archives()

    def test_the_function_for_spark(self):
        spec = importlib.util.spec_from_file_location("spark_labels", EXAMPLES / "spark_labels.py")
        module = importlib.util.module_from_spec(spec)
        spec.loader.exec_module(module)
        texts = {k: line for k, line in enumerate((self.room / "list").read_text().splitlines(), 1) if line}
        numbers = list(texts)
        frames = [{"number": numbers[k:k + 700], "text": [texts[it] for it in numbers[k:k + 700]]} for k in range(0, len(numbers), 700)]
        frames.append({"number": [], "text": []})
        written = module.written_to(str(self.room / "out"), lambda faults, columns: (columns, faults))
        self.assertEqual([[number for number, _ in faults] for columns, faults in written(iter(frames)) if columns == ["number", "why"]], [[8], [], [], []])
        self.of_archives(scale=4)


if __name__ == "__main__":
    unittest.main()
