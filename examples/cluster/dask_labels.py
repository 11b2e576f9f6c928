#!/usr/bin/env python3
"""Writes a label for each line of a list, on the machines of a Dask cluster: dask_labels.py LIST FOLDER [SCHEDULER]

Without the address of a scheduler it takes the processors of this machine. Each task writes an archive of labels, by the same function as
`qrproved --batch --tar`. All machines need the package qrproved, and the folder. After an interruption call it again: archives that are
there are skipped. Needs dask and distributed (Debian's python3-distributed)."""
import itertools
import sys

from distributed import Client, LocalCluster, as_completed
from qrproved.batch import Label, Part, Settings, write

SETTINGS = Settings("png", level=1, scale=4)  # level M
SHARD = 1000  # labels of an archive
AHEAD = 2  # archives that wait, for each processor


def parts_of(lines, folder):
    """Yields the labels of each archive."""
    labels = ((number, line.rstrip("\r\n")) for number, line in enumerate(lines, 1))
    while True:
        shard = [Label(number, f"{number:08}.png", text) for number, text in itertools.islice(labels, SHARD) if text]
        if not shard:
            return
        yield Part(SETTINGS, shard, f"{folder}/{shard[0].line:08}.tar", is_resumed=True)


def faults_of(client, parts):
    """Yields the lines that cannot be drawn, with the reasons. Only some parts are on their way at once."""
    most = AHEAD * sum(client.nthreads().values())
    running = as_completed([client.submit(write, it, pure=False) for it in itertools.islice(parts, most)])
    for done in running:
        yield from done.result().faults
        for part in itertools.islice(parts, 1):
            running.add(client.submit(write, part, pure=False))


def main():
    path, folder, *scheduler = sys.argv[1:]
    with Client(*scheduler or [LocalCluster(threads_per_worker=1, dashboard_address=None)]) as client, open(path, encoding="utf-8-sig", newline="\n") as lines:
        faults = sorted(faults_of(client, parts_of(lines, folder)))
    for line, why in faults:
        print(f"line {line}: {why}", file=sys.stderr)
    return 1 if faults else 0


if __name__ == "__main__":  # the processes of a cluster import this file
    sys.exit(main())
