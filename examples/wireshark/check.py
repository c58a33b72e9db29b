#!/usr/bin/env python3
"""check.py [ARCHIVE]: holds the dissector to what is known of datagrams, by tshark (Debian: tshark).

Captures are written here from the datagrams of tests/vectors, whose fields `lister` prints, of tests/replay and of tests/extras (parity
frames). With an archive, the stations of examples/udp are built and their datagrams captured on loopback, where capturing is allowed.
The last line is 'dissector: N passed, M failed'.
"""
import os, pathlib, re, shutil, struct, subprocess, sys, tempfile, time

HERE = pathlib.Path(__file__).resolve().parent
ROOT = HERE.parent.parent
SEGMENT = ["conv", "cmd", "frg", "wnd", "ts", "sn", "una", "len"]
PORT = 47310
passed = failed = 0


def check(what, holds, seen=""):
    global passed, failed
    passed, failed = passed + bool(holds), failed + (not holds)
    print(f"{what}{'' if holds else f': FAILED {seen}'}")


def write_capture(path, datagrams):
    """A pcap file: each datagram in UDP, in IPv4, without a link layer, one a millisecond."""
    with open(path, "wb") as file:
        file.write(struct.pack("<IHHiIII", 0xA1B2C3D4, 2, 4, 0, 0, 65535, 101))
        for i, datagram in enumerate(datagrams):
            udp = struct.pack(">HHHH", PORT, PORT + 1, 8 + len(datagram), 0) + datagram
            ip = struct.pack(">BBHHHBBH4s4s", 0x45, 0, 20 + len(udp), 0, 0, 64, 17, 0, b"\x0a\0\0\1", b"\x0a\0\0\2")
            file.write(struct.pack("<IIII", i // 1000, i % 1000 * 1000, len(ip + udp), len(ip + udp)) + ip + udp)


def dissect(capture, fields, words=()):
    """For each packet a list of the fields' values, each a list of words."""
    command = ["tshark", "-r", capture, "-X", f"lua_script:{HERE}/ampferweg.lua", "-o", f"ampferweg.ports:{PORT}-{PORT + 2}", *words,
               "-T", "fields", "-E", "separator=/t", "-E", "aggregator=|"]
    said = subprocess.run(command + [word for field in fields for word in ("-e", f"ampferweg.{field}")], capture_output=True, text=True)
    if said.returncode or "Lua" in said.stderr:
        sys.exit(f"check.py: {said.stderr}")
    return [[value.split("|") if value else [] for value in line.split("\t")] for line in said.stdout.splitlines()]


def known_segments(datagram):
    """The segments of a good datagram, by the header's layout."""
    at, segments = 0, []
    while len(datagram) - at >= 24:
        header = struct.unpack_from("<IBBHIIII", datagram, at)
        segments.append(header)
        at += 24 + header[-1]
    return segments


def listings(folder):
    """Every datagram that lister has a listing of."""
    files = sorted((ROOT / "tests/vectors").glob("lister-*.datagram"))
    pairs = [(file.read_bytes(), file.with_suffix(".listing").read_text().splitlines()) for file in files]
    pairs = [(datagram, lines) for datagram, lines in pairs if len(datagram) <= 65507]  # what UDP carries
    write_capture(folder / "lister.pcap", [datagram for datagram, _ in pairs])
    rows = dissect(folder / "lister.pcap", [*SEGMENT, "refusal"])
    for (_, lines), row in zip(pairs, rows):
        if lines[-1].startswith("ok"):
            wanted, seen = [line.split() for line in lines[1:-1]], [list(t) for t in zip(*row[:-1])]
        else:
            wanted, seen = lines[-1].split()[1:], row[-1]
        check(f"lister's datagram, {lines[-1]}", wanted == seen and len(rows) == len(pairs), (wanted, seen))


def flushes(folder):
    """Every datagram that the scripts' links write."""
    answers = [file.read_text() for part in ("vectors", "replay") for file in sorted((ROOT / "tests" / part).glob("*.answers"))]
    datagrams = [bytes.fromhex(hexes) for text in answers for hexes in re.findall(r"^datagram ([0-9a-f]+)$", text, re.M)]
    write_capture(folder / "flushes.pcap", datagrams)
    rows = dissect(folder / "flushes.pcap", [*SEGMENT, "refusal", "tail"])
    wanted = [[[str(n) for n in column] for column in zip(*known_segments(d))] + [[], []] for d in datagrams]
    check(f"{len(datagrams)} datagrams of flushes, field by field", rows == wanted)


def parity(folder):
    """The frames of the parity scripts' writers, group after group."""
    for file in sorted((ROOT / "tests/extras").glob("extras-parity-*.answers")):
        answers = re.split(r"^ok \d+$|^refused \d+.*$", file.read_text(), flags=re.M)
        groups = [re.findall(r"^frame ([0-9a-f]+)$", answer, re.M) for answer in answers]
        for size in sorted({len(group) for group in groups if group}):
            frames = [bytes.fromhex(frame) for group in groups if len(group) == size for frame in group]
            write_capture(folder / "parity.pcap", frames)
            rows = dissect(folder / "parity.pcap", [f"parity.{name}" for name in ("sequence", "type", "group", "place")],
                           words=("-o", f"ampferweg.k:{size - 2}"))
            heads = [struct.unpack_from("<IH", frame) for frame in frames]
            wanted = [[[str(n)] for n in (*head, head[0] // size, i % size)] for i, head in enumerate(heads)]
            check(f"{file.stem}: {len(frames)} frames with k {size - 2}, by sequence, type, group, place", rows == wanted, (rows, wanted))


def segment(sn, frg, text, cmd=81):
    return struct.pack("<IBBHIIII", 7, cmd, frg, 128, 0, sn, 0, len(text)) + text


def data(sequence, datagram):
    return struct.pack("<IHH", sequence, 241, 2 + len(datagram)) + datagram


def rules(folder):
    """Refusals that the files above have none of, and bytes behind the last segment."""
    write_capture(folder / "rules.pcap", [
        segment(0, 0, b"", 80), segment(0, 0, bytes(489)), segment(0, 0, bytes(488)), segment(0, 0, b"") + b"xyz"])
    rows = dissect(folder / "rules.pcap", ["refusal", "tail"])
    check("an unknown command, a long payload, a tail", rows == [[["4"], []], [["5"], []], [[], []], [[], ["78797a"]]], rows)


def inside(folder):
    """A data frame's datagram is taken apart as any other; a message comes from its fragments, in any order; a second copy is told."""
    write_capture(folder / "inside.pcap", [
        data(0, segment(0, 2, b"seat ")), data(2, segment(2, 0, b"holes")), data(1, segment(1, 1, b"4 ")),
        data(3, segment(1, 1, b"4 ")), data(4, segment(3, 0, b"next"))[:-1]])
    rows = dissect(folder / "inside.pcap", ["sn", "message", "retransmission", "refusal"])
    check("a message of three fragments, in data frames out of order", [row[1] for row in rows] == [[], [], ["seat 4 holes"], [], []], rows)
    check("a retransmission, and the frame that it repeats", [row[2] for row in rows] == [[], [], [], ["3"], []], rows)
    check("a data frame whose len is not its datagram's", [row[3] for row in rows] == [[], [], [], [], ["21"]], rows)


def start(*words):
    return subprocess.Popen([str(word) for word in words], stdout=subprocess.DEVNULL)


def compile_stations(folder, archive):
    udp = ROOT / "examples/udp"
    for name, files in (("station", [udp / "options.c", udp / "udp.c", archive]), ("relay", [udp / "options.c", udp / "udp.c"])):
        compiler = [os.environ.get("CC", "cc"), "-std=c99", "-O2", "-I", ROOT / "include"]
        subprocess.run([*compiler, udp / f"{name}.c", *files, "-o", folder / name], check=True)


def stations(folder):
    """The stations of examples/udp on loopback, captured while they exchange recipes."""
    capture = folder / "line.pcapng"
    catch = subprocess.Popen(["tshark", "-q", "-i", "lo", "-f", f"udp portrange {PORT}-{PORT + 2}", "-w", capture],
                             stderr=subprocess.PIPE, text=True)
    if not any("Capturing" in line for line in catch.stderr):
        print("examples/udp on loopback: not tried, capturing is not allowed here")
        return
    time.sleep(1)
    recipes = {name: ROOT / f"examples/udp/recipes/{name}.txt" for name in ("left", "right")}
    ends = {"left": PORT + 1, "right": PORT + 2}
    middle = start(folder / "relay", "--port", PORT, "--left", f"127.0.0.1:{PORT + 1}", "--right", f"127.0.0.1:{PORT + 2}")
    talk = [start(folder / "station", "--name", name, "--port", port, "--peer", f"127.0.0.1:{PORT}", "--conv", 7, "--hello", 100,
                  "--send", recipes[name], "--expect", 24, "--seconds", 20) for name, port in ends.items()]
    ended = [end.wait() for end in talk]
    time.sleep(1)
    for process in (middle, catch):
        process.terminate()
        process.wait()
    rows = dissect(capture, ["hello.boot", "message", "refusal"], words=("-Y", f"udp.dstport == {PORT}"))
    said = [word for row in rows for word in row[1]]
    lines = [line for file in recipes.values() for line in file.read_text().splitlines()]
    check("examples/udp on loopback: both stations end well", ended == [0, 0], ended)
    check(f"its {len(rows)} datagrams, hellos among them, none refused", any(r[0] for r in rows) and not any(r[2] for r in rows), rows)
    check(f"its {len(said)} messages, whole, each once", sorted(said) == sorted(lines), (said, lines))


def main():
    if not shutil.which("tshark"):
        sys.exit("check.py: there is no tshark here; Debian: tshark")
    with tempfile.TemporaryDirectory() as name:
        folder = pathlib.Path(name)
        for part in (listings, flushes, parity, rules, inside):
            part(folder)
        if len(sys.argv) == 2:
            compile_stations(folder, sys.argv[1])
            stations(folder)
    print(f"dissector: {passed} passed, {failed} failed")
    sys.exit(failed > 0)


if __name__ == "__main__":
    main()
