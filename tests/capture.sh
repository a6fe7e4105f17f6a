#!/bin/sh
# tools/trace: captures made here of the messages of examples/replay.txt come out as these messages, from pcap and pcapng; and where tshark is
# there, with the types and references that it reads, and from its text too. Terminals and lines are told, so that replay tells their calls apart.
# From examples/capture/evening.pcap come the events and the posted list that examples/ has. What is no capture is told, and the status is 1.
cd "$(dirname "$0")/.." || exit 2
sh tools/archive && sh tools/cc target/examples/replay examples/replay.c || exit 1
exec python3 - <<'PYTHON'
import os
import re
import shutil
import struct
import subprocess
import tempfile

wanted = []
for line in open("examples/replay.txt", encoding="utf-8"):
    found = re.match(r"^\S+ ([un]) (.*)$", line)
    if found:
        wanted.append((found[1], bytes.fromhex(re.sub(r"0x|[: ]", "", found[2]))))


def frame(direction, octets, number, terminal=64):
    head = bytes((2 if direction == "n" else 0, terminal << 1 | 1))
    return head + (bytes((2 * number % 256, 0)) if number % 3 else b"\x03") + octets


def trace(*arguments, data=b""):
    """The status, what was printed, and what was told."""
    done = subprocess.run(["python3", "tools/trace", *arguments], input=data, capture_output=True)
    told = done.stderr.decode()
    assert "Traceback" not in told, told
    return done.returncode, done.stdout.decode(), told


def run(data):
    status, out, told = trace(data=data)
    lines = [re.match(r"^(?:\S+|packet \d+) tei 64 ([un]) (.*)$", line) for line in out.splitlines() if not line.startswith("#")]
    return [(m[1], bytes.fromhex(m[2])) for m in lines], out, status, told


frames = [frame(*message, i) for i, message in enumerate(wanted)]


def capture(order, magic, link, before, frames):
    data = struct.pack(order + "IHHiIII", magic, 2, 4, 0, 0, 65535, link)
    for i, f in enumerate(frames):
        data += struct.pack(order + "4I", 1700000000 + i, 5, len(before + f), len(before + f)) + before + f
    return data


def block(order, kind, body):
    body += bytes(-len(body) % 4)
    return struct.pack(order + "2I", kind, len(body) + 12) + body + struct.pack(order + "I", len(body) + 12)


def section(order, links, resolution=None):
    option = b"" if resolution is None else struct.pack(order + "2H", 9, 1) + bytes((resolution, 0, 0, 0)) + bytes(4)
    data = block(order, 0x0A0D0D0A, struct.pack(order + "I2Hq", 0x1A2B3C4D, 1, 0, -1))
    return data + b"".join(block(order, 1, struct.pack(order + "2HI", link, 0, 65535) + option) for link in links)


def packet(order, kind, at, time, f, length=None):
    length = len(f) if length is None else length
    if kind == 3:
        return block(order, 3, struct.pack(order + "I", length) + f)
    head = struct.pack(order + ("I" if kind == 6 else "2H"), *((at,) if kind == 6 else (at, 0)))
    return block(order, kind, head + struct.pack(order + "4I", time >> 32, time & 0xFFFFFFFF, len(f), length) + f)


LINKS = ((203, b""), (177, b"\0\x04\x20\xfd\0\x01" + bytes(8) + b"\0\x30"))
plain = frames[:]
frames += [b"\x00\x81\x01\x02", b"\x02\x81\x7f", b"\xfc\xff\x03\x0f\x00\x00\x01\xff", frames[1], b""]
frames.insert(2, frames[1])
logs = set()
for order, magic in ((">", 0xA1B2C3D4), ("<", 0xA1B2C3D4), ("<", 0xA1B23C4D)):
    for link, before in LINKS:
        got, out, status, _ = run(capture(order, magic, link, before, frames))
        assert got[:len(wanted)] == wanted and out.count("# sent again") == 1 and status == 0, out
        logs.add(out)
count = 6
# pcapng: the same log, in both orders, by each kind of block, in microseconds, nanoseconds and parts of a power of two
for order in "<>":
    for link, before in LINKS:
        for resolution, per in ((None, 10**6), (9, 10**9), (0x80 | 10, 1 << 10)):
            data = section(order, [link], resolution) + block(order, 5, bytes(8))
            data += b"".join(packet(order, 6, 0, (1700000000 + i) * per, before + f) for i, f in enumerate(frames))
            got, out, status, _ = run(data)
            assert out in logs and status == 0, out
            count += 1
        data = section(order, [link]) + b"".join(packet(order, 3, 0, 0, before + f) for f in frames)
        assert run(data)[0][:len(wanted)] == wanted
        data = section(order, [link]) + b"".join(packet(order, 2, 0, (1700000000 + i) * 10**6, before + f) for i, f in enumerate(frames))
        assert run(data)[1] in logs
        count += 2
dump = "\n".join("".join(f"{at:04x}  {f[at:at + 16].hex(' '):47}   ....\n" for at in range(0, len(f), 16)) for f in frames)
assert run(dump.encode())[0][:len(wanted)] == wanted

# two interfaces are two lines, and one that is no D channel is passed over; --line names one; sections begin anew
two = section("<", [203, 1, 203]) + packet("<", 6, 0, 0, frames[0]) + packet("<", 6, 1, 0, b"ethernet") + packet("<", 6, 2, 0, frames[0])
status, out, told = trace(data=two + section("<", [203]) + packet("<", 6, 0, 0, frames[0]))
heads = [line[:line.index(" u 08")] for line in out.splitlines()]
assert status == 0 and heads == ["1970-01-01T00:00:00.000 line 0 tei 64", "1970-01-01T00:00:00.000 line 2 tei 64", "1970-01-01T00:00:00.000 tei 64"], out
assert "link type 1, which is neither" in told, told
assert trace("--line=east", data=two)[1].count(" line east tei 64 u 08") == 2

# what is cut, damaged or no capture: told, with status 1, and what stands before it is there
whole = capture("<", 0xA1B2C3D4, 203, b"", plain)
for cut in (2, 20, 30, len(whole) - 1):
    status, out, told = trace(data=whole[:cut])
    assert status == 1 and told.startswith("trace: -: "), (cut, told)
assert out.count("# cut: ") == 1 and out.count("\n") == len(plain), out
whole = section("<", [203]) + b"".join(packet("<", 6, 0, 0, f) for f in plain)
for cut in (8, 30, len(whole) - 1):
    assert trace(data=whole[:cut])[0] == 1
assert trace(data=section("<", [203]) + packet("<", 6, 0, 0, plain[0], 200))[1].startswith("# cut: ")
for data in (b"", b"no capture", bytes(range(256)) * 20, section("<", [203]), section("<", []) + packet("<", 6, 0, 0, plain[0]),
             section("<", [203]) + struct.pack("<3I", 6, 12, 12), section("<", [203]) + bytes(12), capture("<", 0xA1B2C3D4, 1, b"", plain)):
    status, out, told = trace(data=data)
    assert status == 1 and out == "" and "no message of a D channel in it" in told, told

# manners
version = re.search(r'AOC_VERSION_TEXT "(.*)"', open("include/aoc.h", encoding="utf-8").read())[1]
assert trace("--version")[:2] == (0, f"trace {version}\n")
assert trace("--help")[0] == 0 and trace("--help")[1].startswith("usage: trace ")
for wrong in ("--lines", "--line=", "--line=a b", "-x"):
    status, out, told = trace(wrong)
    assert status == 2 and out == "" and told.startswith("trace: usage: trace "), told
status, out, told = trace("examples/capture/evening.pcap", "examples/none.pcap", "examples")
assert status == 1 and out == trace("examples/capture/evening.pcap")[1], told
assert told == "trace: examples/none.pcap: cannot be read: No such file or directory\ntrace: examples: cannot be read: Is a directory\n", told
if os.access("/dev/full", os.W_OK):
    with open("/dev/full", "wb") as full:
        done = subprocess.run(["python3", "tools/trace", "examples/capture/evening.pcap"], stdout=full, stderr=subprocess.PIPE)
    assert done.returncode == 1 and done.stderr == b"trace: the output cannot be written: No space left on device\n", done.stderr


# two terminals with one reference stay two calls: replay posts both charges
def replay(log, *arguments):
    return subprocess.run(["sh", "tools/exec", "target/examples/replay", *arguments], input=log.encode(), capture_output=True).stdout.decode()


final = "1C1D91A11A02010B020123301230{}10A10E8103455552A2078102{}820101".format("", "{}")
calls = [("u", "08010105", 64), ("u", "08010105", 65), ("n", "08018107", 64), ("n", "08018107", 65), ("n", "08018145" + final.format("03E7"), 65),
         ("u", "0801015A", 65), ("n", "08018145" + final.format("0096"), 64), ("u", "0801015A", 64)]
log = trace(data=capture("<", 0xA1B2C3D4, 203, b"", [frame(d, bytes.fromhex(octets), i, t) for i, (d, octets, t) in enumerate(calls)]))[1]
posted = re.findall(r"^call 1, tei (\d+)$|^  to post: (.*), by", replay(log), re.M)
assert posted == [("64", ""), ("", "EUR 1.500"), ("65", ""), ("", "EUR 9.990")], posted

# from a capture to the night's events; tests/replay.sh has the list that night posts of them
events = replay(trace("examples/capture/evening.pcap")[1], "--night", "--rooms=examples/capture/rooms.txt")
assert events == open("examples/capture/events.txt", encoding="utf-8").read(), events

beside = ""
if shutil.which("tshark"):
    for link, before in LINKS:
        with tempfile.TemporaryDirectory() as work:
            path = os.path.join(work, "d.pcap")
            with open(path, "wb") as file:
                file.write(capture("<", 0xA1B2C3D4, link, before, plain))
            ask = ["tshark", "-r", path]
            told = subprocess.run([*ask, "-T", "fields", "-e", "q931.message_type", "-e", "q931.call_ref"], capture_output=True, check=True).stdout.decode()
            ours = [f"0x{octets[3]:02x}\t{octets[2] & 0x7F:02x}" for _, octets in wanted]
            assert told.splitlines() == ours, (told, ours)
            text = subprocess.run([*ask, "-x"], capture_output=True, check=True).stdout
            assert run(text)[0] == wanted
            again = os.path.join(work, "d.pcapng")
            subprocess.run([*ask, "-w", again], capture_output=True, check=True)
            assert trace(again)[1] == trace(path)[1]
    beside = "; tshark reads the same"
print(f"capture: {len(wanted)} messages, {count} captures and a text{beside}; from a capture to the night")
PYTHON
