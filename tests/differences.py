"""Prints the first answers that differ: python3 tests/differences.py NAME INPUTS SECOND OURS [DRIVER]

With a driver of the library, both sides are asked again about an account, with the octets of each figure in place of its
checksum, and the fields that differ are printed so.
"""
import itertools
import subprocess
import sys

SHOWN = 10
EVENT = "outcome,service,phase,rate,running,closing figure,its service,marks,pending,S,D,E".split(",")
HELD = ("outcome,service,first 16 octets,rate,running,final of D,final of E,"
        "phase read off,rate read off,running read off,closing figure,its service,marks,pending").split(",")
FIELDS = {b"A": EVENT, b"D": EVENT, b"Z": HELD}


def answered(command, line):
    return subprocess.run([*command, "octets"], input=line + b"\n", stdout=subprocess.PIPE).stdout.decode().rstrip("\n")


def tell(what, line):
    print(f"  {what:7}{'(no line)' if line is None else line}")


def first_place(a, b):
    """Where two texts in hex differ first, as an octet's place."""
    return next((i // 2 for i, (x, y) in enumerate(itertools.zip_longest(a, b)) if x != y), None)


def tell_octets(line, driver):
    second = answered([sys.executable, "second/answer.py"], line)
    ours = answered(["sh", "tools/exec", driver], line)
    if second == ours:
        print("  asked again, they agree")
    told = set()
    for number, sides in enumerate(itertools.zip_longest(second.split(";"), ours.split(";"), fillvalue=""), 1):
        fields = itertools.zip_longest(FIELDS[line[:1]], *(side.split(",") for side in sides), fillvalue="")
        for name, of_second, of_ours in fields:
            # What stays as it is after an event is told once.
            if of_second != of_ours and (name, of_second, of_ours) not in told:
                told.add((name, of_second, of_ours))
                at = f", from octet {first_place(of_second, of_ours)} on" if len(of_second) == len(of_ours) > 20 else ""
                print(f"  answer {number}: {name}{at}")
                tell("second", of_second)
                tell("ours", of_ours)


def main():
    name, *files = sys.argv[1:5]
    lines = itertools.zip_longest(*(open(file, "rb").read().split(b"\n") for file in files))
    differing = ((given, second, ours) for given, second, ours in lines if second != ours)
    for given, second, ours in itertools.islice(differing, SHOWN):
        print(f"compare: {name} differs")
        for what, line in (("input", given), ("second", second), ("ours", ours)):
            tell(what, line and line.decode("latin-1"))
        if given and given[:1] in FIELDS and sys.argv[5:]:
            tell_octets(given, sys.argv[5])


main()
