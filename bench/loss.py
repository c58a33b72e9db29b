#!/usr/bin/env python3
"""loss.py [ARCHIVE]: delivery under loss, our link and kcp-go's core, 0 to 50 datagrams of 100 lost: writes docs/pictures/loss.csv.

What is measured is said in loss.c. Each number is the median of five runs of 20,000 messages. Time is virtual, so that the file is the same
on every machine.
"""
import csv
import json
import os
import pathlib
import statistics
import sys

from run import FLAGS, HERE, ROOT, WORK, build_kcp_go, run

MESSAGES = 20000
SEEDS = range(1, 6)
COLUMNS = ("impl", "mode", "loss", "median", "p99", "most", "datagrams")


def measure(program, mode, loss):
    runs = [json.loads(run(program, loss, mode, MESSAGES, seed)) for seed in SEEDS]
    return {name: runs[0][name] if name == "impl" else statistics.median(one[name] for one in runs) for name in COLUMNS}


def main():
    archive = pathlib.Path(sys.argv[1]) if len(sys.argv) > 1 else ROOT / "target/staticlib/libampferweg.a"
    if not archive.is_file():
        sys.exit(f"loss: {archive} is missing: run 'make' first")
    WORK.mkdir(parents=True, exist_ok=True)
    ours = WORK / "loss_ampferweg"
    sources = [HERE / name for name in ("loss.c", "impl_ampferweg.c", "wire.c")]
    run(os.environ.get("CC", "cc"), *FLAGS, *sources, archive, "-o", ours)
    theirs = build_kcp_go("kcploss", "loss_kcpgo")
    programs = [(ours, 0), (ours, 1), (ours, 2), (theirs, 0), (theirs, 1)]
    rows = [measure(program, mode, loss) for program, mode in programs for loss in range(0, 55, 5)]
    with open(ROOT / "docs/pictures/loss.csv", "w", newline="") as file:
        writer = csv.DictWriter(file, COLUMNS, lineterminator="\n")
        writer.writeheader()
        writer.writerows(rows)
    print((ROOT / "docs/pictures/loss.csv").read_text(), end="")


if __name__ == "__main__":
    main()
