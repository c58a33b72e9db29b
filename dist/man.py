#!/usr/bin/env python3
"""man.py [HEADER [PAGE]]: the manual page ampferweg(3), from the comments of include/ampferweg.h.

The header's sections become the page's; each declaration stands above the text of its comment. What is the header's own is left out:
names with ampferweg_inner_, layout assertions, initializers. PAGE is target/man/ampferweg.3 where none is named.
"""
import pathlib
import re
import sys

ROOT = pathlib.Path(__file__).resolve().parent.parent
SKIPPED = re.compile(r"#(if|ifdef|ifndef|else|elif|endif|include|error)\b|extern \"C\"|}$|AMPFERWEG_LAYOUT\(|"
                     r"#define AMPFERWEG_(LAYOUT|LINK_UNOPENED|COUNTERS_NONE|H)\b")


def escape(line):
    """A line of text for roff."""
    line = line.replace("\\", "\\e").replace("-", "\\-")
    return "\\&" + line if line[:1] in (".", "'") else line


def example(lines):
    return [".EX", *map(escape, lines), ".EE"]


def prose(comment):
    """A comment's lines as paragraphs and examples; an example is indented by four."""
    lines, code = [], []
    for line in [re.sub(r"^ ?\* ?", "", raw).rstrip() for raw in comment.split("\n")] + [""]:
        if line.startswith("    ") or (code and line == "" and not lines):
            code.append(line[4:])
            continue
        if code:
            lines += [".PP", *example(code)]
            lines += [".PP"] if line else []
            code = []
        if line == "":
            lines += [".PP"] if lines and lines[-1] != ".PP" else []
        else:
            lines.append(escape(line))
    while lines and lines[-1] == ".PP":
        lines.pop()
    return lines


def declarations(code):
    """What a piece of code declares: macros by their first line, functions without their bodies, types whole."""
    code = re.sub(r"\\\n\s*", " ", code)
    code = re.sub(r"^static inline ([^{;]*?)\s*\{(?:[^\n]*\}$|.*?^\})", r"\1;", code, flags=re.M | re.S)
    found, statement = [], []
    for line in code.split("\n"):
        if not statement and (not line.strip() or SKIPPED.match(line)):
            statement = ["skip"] if line.startswith("AMPFERWEG_LAYOUT(") and not line.rstrip().endswith(";") else []
            continue
        statement.append(line)
        joined = "\n".join(statement)
        if line.startswith("#define") and len(line) > 100:
            statement = [re.match(r"#define \w+(\([^)]*\))?", line)[0]]
        if line.startswith("#define") or (line.rstrip().endswith(";") and joined.count("{") == joined.count("}")):
            if statement[0] != "skip" and "ampferweg_inner_" not in statement[0]:
                found += statement
            statement = []
    return found


def units(text):
    """The header as comments at the start of a line, each with the code behind it."""
    pieces = re.split(r"^/\*(.*?)\*/", text, flags=re.M | re.S)
    return list(zip(pieces[1::2], pieces[2::2]))


def page(text):
    version = re.search(r'AMPFERWEG_VERSION "(.*)"', text)[1]
    (top, head), *rest = units(text)
    name, about = re.match(r" Ampferweg: (.*?)\.\n \*\n(.*)", top, re.S).groups()
    yield f'.TH AMPFERWEG 3 "" "Ampferweg {version}" "Library Functions Manual"'
    yield from (".SH NAME", f"ampferweg \\- {escape(name)}", ".SH SYNOPSIS", ".EX", "#include <ampferweg.h>", "")
    yield from ("cc station.c $(pkg\\-config \\-\\-cflags \\-\\-libs ampferweg)", ".EE", ".SH DESCRIPTION", *prose(about))
    for comment, code in rest:
        if title := re.match(r" ---- (.*?) -+\n(.*)", comment, re.S):
            yield f".SH {escape(title[1].upper())}"
            yield from prose(title[2].removeprefix(" *\n"))
            code = "\n\n" + code
        own, _, other = code.partition("\n\n")  # a comment is of what stands right behind it
        if shown := declarations(own):
            yield from (".PP", *example(shown), ".RS 4", *prose(comment.strip()), ".RE")
        if shown := declarations(other):
            yield from (".PP", *example(shown))
    yield from (".SH SEE ALSO", "docs/C.md: sizes, what the caller owes, restarts; docs/BOARDS.md: stack of each call;",
                "docs/JOINING.md: stations that speak ikcp or kcp\\-go.")


def main():
    header = pathlib.Path(sys.argv[1]) if len(sys.argv) > 1 else ROOT / "include/ampferweg.h"
    to = pathlib.Path(sys.argv[2]) if len(sys.argv) > 2 else ROOT / "target/man/ampferweg.3"
    to.parent.mkdir(parents=True, exist_ok=True)
    to.write_text("\n".join(page(header.read_text())) + "\n")
    print(to)


if __name__ == "__main__":
    main()
