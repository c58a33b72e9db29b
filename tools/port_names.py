#!/usr/bin/env python3
"""Brings the repository's own definitions and lemmas to snake case: `headerSize` and `before-test` to `header_size` and `before_test`.

    python3 tools/port_names.py [--dry]      at the top, once, right behind the kit's port.py

Names of functions, structs and fields of src/ keep their spelling, and so do the kit's. What a proof file takes from the check (goals and steps,
the names of which join parts by a dash) keeps its dash. Ends with 1, writing nothing, where two names would fall together.
"""
import os
import re
import sys

WORD = r"[^\W\d][\w'\u2080-\u2089\u2032-]*"
TOKEN = re.compile(r"(?<![\w'\u2080-\u2089\u2032-])" + WORD)
OWN_TOP = re.compile(r"^(?:abbrev |unfoldable |opaque )?(?:pub )?(?:abbrev |unfoldable )?(?:record |data )?(" + WORD + r")(?=[\s:({])")
SKIP = {"use", "mod", "pub", "where", "unfolding", "record", "data", "abbrev", "unfoldable", "opaque", "ruleset", "syntax", "infixl", "infixr", "infix"}
# names that the kit's script spelled so, and that would fall together with a definition: a lemma that would have its definition's name gets `_lem`
LEMMAS = {"in_window", "is_made", "joined_in", "name_in", "numbers_fit", "value_in", "goes_by"}
# the same in these files alone
LEMMAS_IN = {"both_read": ("crates/wrong_links/specs/Session.antt", "crates/wrong_links/specs/Tried.antt")}


def files(root="crates"):
    for folder, dirs, names in os.walk(root):
        dirs[:] = sorted(d for d in dirs if d != "out")
        for name in sorted(names):
            if name.endswith((".antt", ".rt")):
                yield os.path.join(folder, name)


def snake(name):
    name = name.replace("-", "_")
    if name[0].islower():
        name = re.sub(r"(?<=[a-z0-9\u2080-\u2089])([A-Z])", lambda m: "_" + m.group(1).lower(), name)
        name = re.sub(r"_([A-Z])", lambda m: "_" + m.group(1).lower(), name)
    return name


def declared(text, is_proof):
    """What a file of antt declares: at its top, below a `where`, as a field or a constructor, and the variables that it binds."""
    found = set()
    lines = text.split("\n")
    for i, line in enumerate(lines):
        if line.lstrip().startswith("--") or line.startswith("use "):
            continue
        m = re.match(r"^\s*(?:abbrev |unfoldable |opaque )?(?:pub )?(?:abbrev |unfoldable )?(?:record |data )?(" + WORD + r")(?: *[({][^:]*:.*)?\s+:(?:\s|$)", line)
        if m and m.group(1) not in SKIP:
            rest = line[m.end():]
            if not re.match(r"\s*(?:pub )?(?:tie|goal)\.", rest):
                found.add(m.group(1))
        m = OWN_TOP.match(line)
        if m and re.match(r"^(?:abbrev |unfoldable |opaque )?(?:pub )?(?:abbrev |unfoldable )?(?:record|data) ", line):
            found.add(m.group(1))
        for group in re.findall(r"[({]((?:" + WORD + r" )+): ", line):
            found.update(group.split())
    return found


def kit_names():
    """Names that the repository's files take from the kit."""
    found = set()
    for path in files():
        text = open(path, encoding="utf-8").read()
        for module, names in re.findall(r"\buse ([\w.+'-]+)\.\{([^}]*)\}", text):
            if not re.match(r"Rattle\.(?!std\b)", module):
                found.update(n.strip().split(" as ")[0] for n in names.replace("\n", " ").split(","))
    return found


def main(dry):
    own = set()
    sources = set()
    for path in files():
        text = open(path, encoding="utf-8").read()
        if path.endswith(".antt"):
            own |= declared(text, "/proofs/" in path)
        else:
            code = re.sub(r"//.*", "", text)
            sources |= set(re.findall(r"\b(?:fn|struct|enum|mod|const|let mut|let) (\w+)", code))
            sources |= set(re.findall(r"\b(\w+):", code))
    kit = kit_names()
    turned = {}
    for name in own:
        if name in kit or name in sources:
            continue
        to = snake(name)
        if to != name:
            turned[name] = to
    # a lemma that would have the name of a definition
    stand = set()
    for path in files():
        if path.endswith(".antt") and not path.endswith("/Proof.antt"):
            stand |= set(TOKEN.findall(open(path, encoding="utf-8").read()))
    camel = {to for name, to in turned.items() if "-" not in name}
    for name, to in turned.items():
        if "-" in name and (to in camel or to in stand):
            turned[name] = to + "_lem"
    for name in LEMMAS:
        turned[name] = name + "_lem"
    # names that fall together
    bad = 0
    back = {}
    for name, to in sorted(turned.items()):
        if to in back:
            print(f"two names fall together: {back[to]} and {name}: {to}")
            bad += 1
        back[to] = name
    every = {}
    for path in files():
        text = open(path, encoding="utf-8").read()
        for token in set(TOKEN.findall(text)):
            if token in LEMMAS or token in LEMMAS_IN:
                continue
            if token in back and not path.endswith("/Proof.antt"):
                if path.endswith(".antt") or re.search(r"\b" + token + r":", text):
                    every.setdefault(token, []).append(path)
    for token, paths in sorted(every.items()):
        for path in paths:
            if back[token] in set(TOKEN.findall(open(path, encoding="utf-8").read())):
                print(f"{back[token]}: {token} stands already in {path}")
                bad += 1
    print(f"{len(turned)} names turned, {bad} to look at")
    if dry:
        return 0
    if bad:
        return 1
    for path in files():
        text = open(path, encoding="utf-8").read()
        proof = os.path.basename(path) == "Proof.antt"

        def turn(m):
            name = m.group(0)
            before = text[: m.start()]
            if path in LEMMAS_IN.get(name, ()):
                return name + "_lem"
            if name not in turned or (name in LEMMAS and path.endswith(".rt")):
                return name
            if proof and before.endswith(".") and name.replace("-", "_") in sources:
                return name
            if proof and re.search(r"(?:\btie|\bgoal)\.(?:Need-|InvT-|MeasureT-)?$", before[-20:]):
                return name
            return turned[name]

        new = TOKEN.sub(turn, text)
        if new != text:
            open(path, "w", encoding="utf-8").write(new)
    for folder, _, names in os.walk("crates"):
        for path in [os.path.join(folder, n) for n in names if n.endswith(".edit")]:
            text = open(path, encoding="utf-8").read()
            proof = False
            # an edit's text is the file's: a projection is written tight, a prime is an apostrophe
            new = re.sub(r"(?<=[\w')\u2032]) \.(?=[a-z0-9])", ".", text)
            new = re.sub(r"(?m)^(old|new):(.*)$", lambda m: m.group(1) + ":" + m.group(2).replace("\u2032", "'"), new)
            new = TOKEN.sub(lambda m: turned.get(m.group(0), m.group(0)), new)
            if new != text:
                open(path, "w", encoding="utf-8").write(new)
    return 0


if __name__ == "__main__":
    sys.exit(main("--dry" in sys.argv[1:]))
