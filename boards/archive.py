#!/usr/bin/env python3
"""archive.py TARGET [WORDS ..]: the archives for another machine of targets.txt, from the proved modules that module.sh kept.

Writes target/boards/TARGET/libNAME.a, and libNAME.su with the frame of each function. WORDS go last to the kit's clang, as -O2 or
-mcpu=cortex-m7. Only the kit's clang and llvm-ar are used, and no instruction of a module is changed: data layout and triple become the
target's, the name of x86's processor goes, -Os and -Oz mark the functions as for C, and 32-bit numbers of exported functions are extended
as the target's C does. What this rests on is tested first: a module or a header that does not fit is refused.
"""
import pathlib, re, subprocess, sys, tempfile

ROOT = pathlib.Path(__file__).resolve().parent.parent
NAMES = ("ampferweg", "ampferweg_tags", "ampferweg_parity")


def targets():
    """The rows of targets.txt: name -> (triple, words, compiler's prefix, emulator)."""
    rows = [line.split("|") for line in (ROOT / "boards/targets.txt").read_text().splitlines() if not line.startswith("#")]
    return {row[0].strip(): [column.strip() for column in row[1:]] for row in rows}


def refuse(why):
    sys.exit(f"archive.py: {why}")


def read_command(name):
    """The kit's clang, and the prover's words to it but for those that name the machine, the files and the optimization."""
    try:
        clang, *words = (ROOT / f"target/module/{name}.command").read_text().splitlines()
    except FileNotFoundError:
        refuse(f"there is no module of {name}: run boards/module.sh {name}")
    kept = [w for w in words if not re.match(r"--target=|--sysroot=|-march=|-fPIC$|-O\w$|-x$|ir$|-o$|.*\.(bc|o)$", w)]
    return clang, kept


def check_module(name, text):
    """What makes a module fit other machines: nothing of x86, no address taken as a number, a pointer's place used for pointers alone."""
    for form in (r"(?<!-)\basm\b", r"\bptrtoint\b", r"\binttoptr\b", r"\baddrspace\b", r"llvm\.x86", r"^@.*\bptr\b"):
        if found := re.search(f"^.*{form}.*$", text, re.M):
            refuse(f"{name}: a form that is not for every machine: {found[0].strip()}")
    for body in re.findall(r"^define .*?^}", text, re.M | re.S):
        for slot in re.findall(r"(%\w+) = alloca ptr", body):
            uses = re.findall(rf"^.*{slot}\b.*$", body, re.M)
            as_pointer = rf"\s*({slot} = alloca ptr|store ptr [%@][\w.]+, ptr {slot},|%\w+ = load ptr, ptr {slot},)"
            if other := [use for use in uses if not re.match(as_pointer, use)]:
                refuse(f"{name}: a pointer's place is used as other than a pointer: {other[0].strip()}")


def read_header(name, clang, words, folder):
    """The header's functions as this clang declares them for the target, with the target's data layout and triple."""
    (folder / "stddef.h").write_text(
        "typedef __SIZE_TYPE__ size_t;\n#define NULL ((void *)0)\n#define offsetof(type, member) __builtin_offsetof(type, member)\n")
    kinds = [(sign, bits) for sign in ("U", "") for bits in (8, 16, 32, 64)]
    (folder / "stdint.h").write_text("".join(f"typedef __{s}INT{n}_TYPE__ {s.lower()}int{n}_t;\n" for s, n in kinds))
    functions = re.findall(r"^\w+ (ampferweg_\w+)\(", (ROOT / f"include/{name}.h").read_text(), re.M)
    uses = "".join(f"void *at_{f}(void) {{ return (void *){f}; }}\n" for f in functions)
    (folder / "uses.c").write_text(f"#include <{name}.h>\n{uses}")
    subprocess.run([clang, *words, "--no-default-config", "-O0", "-nostdinc", "-isystem", folder, "-I", ROOT / "include",
                    "-S", "-emit-llvm", folder / "uses.c", "-o", folder / "uses.ll"], check=True)
    return (folder / "uses.ll").read_text()


def shape(line):
    """A function's name, and the types of its result and its parameters, each with its extension."""
    result, name, parameters = re.match(r"\w+ (.*)@(\w+)\((.*?)\)", line).groups()
    parts = [part.split() for part in [result, *parameters.split(", ")] if part]
    kinds = [next(w for w in words if re.match(r"(i\d+|ptr|void)$", w)) for words in parts]
    return name, kinds, [next((w for w in words if w in ("signext", "zeroext")), "") for words in parts]


def extend(name, text, declared):
    """Puts the extensions that the header's functions have into the module's, where their types are the same; refuses other functions."""
    declarations = re.findall(r"^declare .*@ampferweg_.*$", declared, re.M)
    defined = re.findall(r"^define (?!internal|private).*$", text, re.M)
    wanted, has = ({f: kinds for f, kinds, _ in map(shape, lines)} for lines in (declarations, defined))
    for f in wanted.keys() | has.keys():
        if wanted.get(f) != has.get(f):
            refuse(f"{f}: {name}.h has {wanted.get(f)}, and the module {has.get(f)}")
    extensions = {f: words for f, _, words in map(shape, declarations)}
    for line in defined:
        words = iter(extensions[shape(line)[0]])
        text = text.replace(line, re.sub(r"\bnoundef\b", lambda _: f"noundef {next(words)}".strip(), line))
    return text


def retarget(name, text, declared, words):
    """The module's text with the target's data layout, triple and attributes."""
    for key in ("datalayout", "triple"):
        theirs = re.search(f"^target {key} = .*$", declared, re.M)[0]
        text = re.sub(f"^target {key} = .*$", lambda _: theirs, text, flags=re.M)
    level = [w for w in words if w.startswith("-O")][-1]
    small = {"-Os": "optsize ", "-Oz": "minsize optsize "}.get(level, "")
    for group in set(re.findall(r"^define .* (#\d+) ", text, re.M)):
        text = re.sub(rf"^(attributes {group} = {{ )(.*?)( \"target-cpu\"=\"[^\"]*\")?( }})$", rf"\1{small}\2\4", text, flags=re.M)
    return extend(name, text, declared)


def build(name, target, extra, folder):
    triple, words, *_ = targets()[target]
    clang, kept = read_command(name)
    words = [f"--target={triple}", *words.split(), *extra]
    plain, module, built = folder / "plain.ll", folder / "module.ll", folder / f"{name}.o"
    subprocess.run([clang, "--target=x86_64-unknown-linux-gnu", "--no-default-config", "-x", "ir", ROOT / f"target/module/{name}.bc",
                    "-S", "-emit-llvm", "-Xclang", "-disable-llvm-passes", "-o", plain], check=True)
    check_module(name, plain.read_text())
    module.write_text(retarget(name, plain.read_text(), read_header(name, clang, words, folder), words))
    subprocess.run([clang, *words[:1], *kept, *words[1:], "-fstack-usage", "-x", "ir", module, "-o", built], check=True)
    to = ROOT / "target/boards" / target
    to.mkdir(parents=True, exist_ok=True)
    (to / f"lib{name}.su").write_text(re.sub(r"^[^:]*:", "", built.with_suffix(".su").read_text(), flags=re.M))
    archive = to / f"lib{name}.a"
    archive.unlink(missing_ok=True)
    subprocess.run([pathlib.Path(clang).with_name("llvm-ar"), "rcsD", archive, built], check=True)
    proof = re.search(r'"rattle (logic=\w{16})', module.read_text())[1]
    print(f"{archive.relative_to(ROOT)}: {proof}, {' '.join(words)}")


def main():
    if len(sys.argv) < 2 or sys.argv[1] not in targets():
        refuse(f"the targets are {', '.join(targets())}")
    for name in NAMES:
        with tempfile.TemporaryDirectory() as folder:
            build(name, sys.argv[1], sys.argv[2:], pathlib.Path(folder))


if __name__ == "__main__":
    main()
