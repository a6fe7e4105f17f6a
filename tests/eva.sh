#!/bin/sh
# The headers' inline C has no undefined behaviour, whatever it is handed: shown by Frama-C's Eva where frama-c is there (Debian:
# frama-c-base), told as not run where it is not. Everywhere: each inline function has a driver (tests/eva/drivers.c), each export a
# contract (tests/eva/contracts.h). How one is added stands at the top of each of these files.
cd "$(dirname "$0")/.." || exit 2
exec python3 tests/eva/eva.py
