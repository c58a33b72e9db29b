#!/usr/bin/env python3
"""Builds the driver over our archive and over kcp-go's core, runs every workload, and writes docs/PERFORMANCE.md and its pictures.

    bench/run.py [ARCHIVE] [--divide N] [--output FILE] [--without-go]

--divide N makes every workload N times shorter (for a quick look). kcp-go's core is built from Debian's packages golang-go
and golang-github-xtaci-kcp-dev; --without-go leaves it out.
"""
import argparse
import json
import os
import pathlib
import platform
import shutil
import statistics
import subprocess
import sys

ROOT = pathlib.Path(__file__).resolve().parent.parent
HERE = ROOT / "bench"
WORK = ROOT / "target" / "bench"
PAGE = ROOT / "docs" / "PERFORMANCE.md"
KCP_GO = pathlib.Path("/usr/share/gocode/src/github.com/xtaci/kcp-go")
FLAGS = ["-std=c99", "-O2", "-Wall", "-Wextra", "-Wpedantic", "-Werror", "-Wl,-z,now", "-I", str(ROOT / "include")]
ROUNDS = 9  # of the time pass: in each, one program after the other
WORST_DIVIDES = 20  # the worst pass keeps every call's time, so it is shorter

WORKLOADS = {
    "W1": "64 bytes, bulk",
    "W2": "2,000 bytes, 9 fragments",
    "W3": "32 bytes, ping-pong",
    "W4": "64 bytes, 10 % lost, 5 % late",
    "W5a": "flood of a full receiver",
    "W5b": "the same, with flushes",
    "W6": "idle flush, 32 outstanding",
    "W7": "2,000 bytes, mtu 1,400",
}


def run(*command, **options):
    """Runs a command, and ends the program with what it said where it fails."""
    done = subprocess.run([str(c) for c in command], stdout=subprocess.PIPE, stderr=subprocess.PIPE, text=True, **options)
    if done.returncode != 0:
        sys.exit(f"bench: {' '.join(map(str, command))}\n{done.stderr}")
    return done.stdout


def build_ours(archive):
    compiler = os.environ.get("CC", "cc")
    sources = [HERE / name for name in ("bench.c", "impl_ampferweg.c", "measure.c", "wire.c")]
    run(compiler, *FLAGS, *sources, archive, "-o", WORK / "bench_ampferweg")
    run(compiler, *FLAGS, HERE / "calls.c", archive, "-o", WORK / "calls")
    return WORK / "bench_ampferweg"


def build_kcp_go(folder="kcpgo", to="bench_kcpgo"):
    """A driver over kcp-go's core as a package of its own: two of its files, renamed, with the driver's clock in place of its own."""
    if not KCP_GO.is_dir() or not shutil.which("go"):
        sys.exit("bench: install golang-go and golang-github-xtaci-kcp-dev first, or leave kcp-go out with --without-go")
    path = WORK / "go"
    shutil.rmtree(path / "src", ignore_errors=True)
    core, driver = path / "src" / "kcpcore", path / "src" / "driver"
    core.mkdir(parents=True)
    driver.mkdir()
    for name in ("kcp.go", "snmp.go"):
        text = (KCP_GO / name).read_text().replace("package kcp\n", "package kcpcore\n")
        lines = [line for line in text.split("\n") if not line.startswith("func currentMs()")]
        (core / name).write_text("\n".join(lines))
    for name in ("shim.go", "tick_amd64.s"):
        shutil.copy(HERE / "kcpgo" / name, core)
    for file in (HERE / folder).glob("*.go"):
        if file.name != "shim.go":
            shutil.copy(file, driver)
    environment = dict(os.environ, GO111MODULE="off", GOPATH=str(path), GOCACHE=str(WORK / "go-cache"))
    run("go", "build", "-o", WORK / to, ".", cwd=driver, env=environment)
    return WORK / to


def one(program, workload, kind, divide):
    return json.loads(run(program, workload, kind, divide))


def measure(programs, workload, divide):
    """For each program: ns per message (the least of all rounds), retransmissions, heap in bytes, the worst call in ns and its kind. The
    programs take turns in every round, so that both have the same machine; the ratio is the median of the rounds' ratios."""
    times = {name: [] for name in programs}
    for _ in range(ROUNDS):
        for name, program in programs.items():
            times[name].append(one(program, workload, "time", divide)["ns"])
    results = {}
    for name, program in programs.items():
        worst = one(program, workload, "worst", divide * WORST_DIVIDES)["worst"]
        kind = max(worst, key=worst.get)
        results[name] = dict(one(program, workload, "count", divide), ns=min(times[name]), worst=worst[kind], worst_kind=kind)
    if "theirs" in programs:
        results["ours"]["ratio"] = statistics.median(x / y for x, y in zip(times["ours"], times["theirs"]))
    return results


def number(value):
    return f"{value:,.0f}"


def pair(ours, theirs, show):
    """Ours, kcp-go's and the ratio, as cells."""
    if theirs is None:
        return [show(ours), "", ""]
    return [show(ours), show(theirs), f"{ours / theirs:.2f}" if theirs else "-"]


def microseconds(nanoseconds):
    return f"{nanoseconds / 1000:.1f}"


def times_table(ours, theirs):
    yield "| Workload | ns, ours | kcp-go's core | ratio |"
    yield "|---|--:|--:|--:|"
    for name, title in WORKLOADS.items():
        other, ratio = (number(theirs[name]["ns"]), f"{ours[name]['ratio']:.2f}") if theirs else ("", "")
        yield f"| {name} {title} | {number(ours[name]['ns'])} | {other} | {ratio} |"


def table(head, ours, theirs, key, show):
    yield f"| Workload | {head}, ours | kcp-go's core | ratio |"
    yield "|---|--:|--:|--:|"
    for name, title in WORKLOADS.items():
        other = theirs[name][key] if theirs else None
        yield f"| {name} {title} | " + " | ".join(pair(ours[name][key], other, show)) + " |"


def calls_table(calls):
    yield "| Call | ns, near empty | full | bytes of stack, near empty | full |"
    yield "|---|--:|--:|--:|--:|"
    for call in ("open", "send", "input", "flush", "update", "check", "read", "size", "show"):
        (stack, time), (full_stack, full_time) = calls["empty"][call], calls["full"][call]
        yield f"| {call} | {number(time)} | {number(full_time)} | {number(stack)} | {number(full_stack)} |"


def processor():
    for line in pathlib.Path("/proc/cpuinfo").read_text().splitlines():
        if line.startswith("model name"):
            return line.split(":", 1)[1].strip()
    return platform.processor()


def undefined(archive):
    """The names that the archive takes from outside."""
    lines = [line.split() for line in run("nm", archive).splitlines() if len(line.split()) > 1]
    defined = {words[-1] for words in lines if words[-2] != "U"}
    wanted = {words[-1] for words in lines if words[-2] == "U"}
    return ", ".join(f"`{name}`" for name in sorted(wanted - defined)) or "nothing"


def document(archive, divide, ours, theirs, calls):
    short = [f"A quick look: every workload was made {divide} times shorter.", ""] if divide > 1 else []
    return "\n".join([
        "# Performance", "",
        "`make bench` writes this page. The workloads are those of bench/README.md: two ends in memory, virtual clock, mtu 256 (W7: 1,400), windows",
        "32 and 128, mode 1, interval 10, fast threshold 2. Ratios are ours to kcp-go's core.",
        f"Machine: {processor()}, {os.cpu_count()} processors.", "", *short,
        "## Time", "",
        f"Processor time for a message (W5: a datagram, W6: a flush), with all calls of both ends: the least of {ROUNDS} rounds. The two programs take",
        "turns in every round; the ratio is the median of the rounds' own ratios.", "",
        *times_table(ours, theirs), "",
        "![Processor time for a message, Ampferweg and kcp-go's core](pictures/times.svg)", "",
        "The worst single call: the largest of all calls' own times, each the least of seven repeats.", "",
        *table("µs", ours, theirs, "worst", microseconds), "",
        "## Retransmissions", "",
        *table("segments", ours, theirs, "retransmissions", number), "",
        "## Memory", "",
        f"Our link has no heap: the archive takes only {undefined(archive)} from outside. What it is lent is in",
        "[C.md](C.md): 147,092 bytes at an mtu of 256, the control block and a flush's output among them. kcp-go's heap is the most that both ends hold after a collection.", "",
        *table("heap, bytes", ours, theirs, "heap", number), "",
        "## Each call", "",
        "Time (the least of many repeats from one state) and stack (a painted one) of each call of ours. Near empty: a message of one byte;",
        "full: 32 segments outstanding, 96 queued, 128 ready with a message of 127 at the front, 128 waiting, 256 noted acks.",
        "The update is one that does not flush.", "",
        *calls_table(calls), "",
        (HERE / "findings.md").read_text()])


def main():
    parser = argparse.ArgumentParser(description="Runs the workloads and writes docs/PERFORMANCE.md.")
    parser.add_argument("archive", nargs="?", default=ROOT / "target" / "staticlib" / "libampferweg.a", type=pathlib.Path)
    parser.add_argument("--divide", type=int, default=1, help="make every workload so many times shorter")
    parser.add_argument("--output", type=pathlib.Path, default=PAGE)
    parser.add_argument("--without-go", action="store_true", help="leave kcp-go's core out")
    options = parser.parse_args()
    if not options.archive.is_file():
        sys.exit(f"bench: {options.archive} is missing: run 'make' first")
    WORK.mkdir(parents=True, exist_ok=True)
    programs = {"ours": build_ours(options.archive)}
    if not options.without_go:
        programs["theirs"] = build_kcp_go()
    results = {name: {} for name in ("ours", "theirs")}
    for workload in WORKLOADS:
        for name, result in measure(programs, workload, options.divide).items():
            results[name][workload] = result
            print(workload, name, json.dumps(result), flush=True)
    calls = json.loads(run(WORK / "calls"))
    text = document(options.archive, options.divide, results["ours"], results["theirs"], calls)
    options.output.write_text(text)
    print(text)
    if options.output == PAGE:
        print(run(ROOT / "docs/pictures/draw.py"), end="")


if __name__ == "__main__":
    main()
