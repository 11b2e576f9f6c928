#!/usr/bin/env python3
"""Writes a label for each row of a table, on the machines of a Spark cluster: spark-submit spark_labels.py TABLE FOLDER

The table is a CSV file with the columns number and text. Each batch of rows that Spark passes becomes an archive of labels, by the same
function as `qrproved --batch --tar`. The program prints the numbers of the rows that cannot be drawn, with the reasons. All machines need
the package qrproved, and the folder.

NOT TRIED: nobody has run this program on Spark yet. Its function `written` was tried with stand-ins for the frames that Spark passes."""
import sys

from qrproved.batch import Label, Part, Settings, write

SETTINGS = Settings("png", level=1, scale=4)  # level M
SHARD = 1000  # rows of a batch, and so labels of an archive, at most


def written_to(folder, frame_of):
    """Returns the function for mapInPandas. It writes an archive for each frame, named by its first number, and yields a frame with the
    faults."""
    def written(frames):
        for frame in frames:
            labels = [Label(int(number), f"{int(number):08}.png", text) for number, text in zip(frame["number"], frame["text"])]
            if labels:
                part = Part(SETTINGS, labels, f"{folder}/{labels[0].line:08}.tar", is_resumed=True)
                yield frame_of(write(part).faults, columns=["number", "why"])
    return written


def main():
    import pandas
    from pyspark.sql import SparkSession
    path, folder = sys.argv[1:]
    spark = SparkSession.builder.appName("labels").config("spark.sql.execution.arrow.maxRecordsPerBatch", SHARD).getOrCreate()
    table = spark.read.csv(path, header=True, schema="number long, text string")
    faults = table.mapInPandas(written_to(folder, pandas.DataFrame), schema="number long, why string").collect()
    for number, why in sorted(faults):
        print(f"label {number}: {why}", file=sys.stderr)
    return 1 if faults else 0


if __name__ == "__main__":
    sys.exit(main())
