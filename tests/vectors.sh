#!/bin/sh
# The second program by itself: document 01's vectors, the cases of 02's readings, and what it reads is written and read again.
cd "$(dirname "$0")/.." || exit 2
exec python3 second/vectors.py
