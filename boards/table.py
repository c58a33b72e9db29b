#!/usr/bin/env python3
"""table.py: the figures of docs/BOARDS.md, from the archives below target/boards: code, stack of each call, and what is taken from outside.

The stack of a call is the deepest chain of frames below it: frames from the compiler (.su), calls from the relocations that a function's
code has. All frames are static and nothing calls itself, which is tested here. What is taken from outside, as memcpy, counts 0.
"""
import re, subprocess, sys
from archive import NAMES, ROOT, targets

MARK = "<!-- figures: boards/table.py writes what follows -->\n"


def tool(target, name, *words):
    prefix = targets()[target][2]
    return subprocess.run([prefix + name, *words], capture_output=True, text=True, check=True).stdout


def folder(target):
    return ROOT / "target/boards" / target


def frames_of(target, name):
    rows = [line.rsplit("\t", 2) for line in (folder(target) / f"lib{name}.su").read_text().splitlines()]
    if moving := [row for row in rows if row[2] != "static"]:
        sys.exit(f"table.py: {target}: a frame that is not static: {moving[0]}")
    address = 8 if target.startswith("x86") else 0  # there a call itself pushes the way back, which no frame counts
    return {function: int(size) + address for function, size, _ in rows}


def calls_of(target, name, frames):
    """Which functions each function's code names."""
    calls, at = {function: set() for function in frames}, None
    for line in tool(target, "objdump", "-dr", folder(target) / f"lib{name}.a").splitlines():
        if head := re.match(r"[0-9a-f]+ <(.*)>:$", line):
            at = head[1] if head[1] in frames else at
        elif used := re.search(r"\sR_[A-Z0-9_]+\s+(.*)$", line):
            callee = re.sub(r"^\.text\.|[-+]0x[0-9a-f]+$", "", used[1])
            if callee in frames:
                calls[at].add(callee)
    return calls


def depths(target, name):
    """The deepest stack of each exported function."""
    frames = frames_of(target, name)
    calls = calls_of(target, name, frames)

    def deepest(function, above):
        if function in above:
            sys.exit(f"table.py: {function} calls itself")
        return frames[function] + max((deepest(callee, above | {function}) for callee in calls[function]), default=0)

    return {function: deepest(function, frozenset()) for function in frames if re.fullmatch(r"ampferweg_\w+", function)}


def outside(target):
    """What the archives take from outside; ARM's functions for aligned parts, with 4 or 8 at the end, by their plain name."""
    words = [word for name in NAMES for word in tool(target, "nm", "-u", folder(target) / f"lib{name}.a").split()]
    return sorted({re.sub(r"^(__aeabi_mem[a-z]*)[48]$", r"\1", word) for word in words if word != "U" and not word.endswith(":")})


def code(target, name):
    return int(tool(target, "size", folder(target) / f"lib{name}.a").splitlines()[1].split()[0])


def table(head, rows):
    yield "| " + " | ".join(head) + " |"
    yield "|---|" + "--:|" * (len(head) - 1)
    for row in rows:
        yield "| " + " | ".join(f"{cell:,}" if isinstance(cell, int) else cell for cell in row) + " |"
    yield ""


def figures():
    names = list(targets())
    yield "Code and constants, bytes:\n"
    yield from table(["", *names], [[f"`lib{n}.a`", *(code(t, n) for t in names)] for n in NAMES])
    yield "The deepest stack of a call, bytes, with every frame below it:\n"
    for n in NAMES:
        deep = {t: depths(t, n) for t in names}
        yield from table([f"`{n}.h`", *names], [[f"`{f}`", *(deep[t][f] for t in names)] for f in sorted(deep[names[0]])])
    yield "The largest frame of a single function, bytes:\n"
    yield from table(["", *names], [[f"`lib{n}.a`", *(max(frames_of(t, n).values()) for t in names)] for n in NAMES])
    yield "What the three archives take from outside (ARM's memory functions also with 4 and 8 at the end):\n"
    yield "| | |\n|---|---|"
    for t in names:
        yield f"| {t} | {', '.join(f'`{w}`' for w in outside(t))} |"
    yield ""
    yield "Made with:\n\n| | clang's words |\n|---|---|"
    for t, (_, words, *_) in targets().items():
        yield f"| {t} | `{words}` |"


def main():
    page = ROOT / "docs/BOARDS.md"
    text = page.read_text()
    page.write_text(text[: text.index(MARK) + len(MARK)] + "\n" + "\n".join(figures()) + "\n")


if __name__ == "__main__":
    main()
