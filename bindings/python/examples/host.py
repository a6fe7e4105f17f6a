"""The README's host in Python."""
import aoc

# of the network's DISCONNECT: what the call cost
OCTETS = bytes.fromhex("A1 1A 02 01 0B 02 01 23 30 12 30 10 A1 0E 81 03 45 55 52 A2 07 81 02 00 96 82 01 01")

call = aoc.Call()
print("set-up:", call.setup())
print("connect:", call.connect())
print("clear:", call.clear())
print("component:", call.component(OCTETS))
print("released:", call.released())
closing = call.closing()
print("to post:", aoc.text(closing.charge) if closing else "nothing")
