#!/bin/sh
# sh bench/messages.sh: what turning a call's messages into its event list takes, and what the plain engine takes on it.
cd "$(dirname "$0")/.." || exit 2
sh tools/archive || exit 1
work=$(mktemp -d) || exit 2
trap 'rm -rf "$work"' EXIT
sh tools/cc "$work/messages" bench/messages.c || exit 1
for events in 500 1000 2000; do sh tools/exec "$work/messages" $events || exit 1; done
