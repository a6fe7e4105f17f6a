#!/bin/sh
# sh docs/times.sh COMMIT...
#     proves each commit from nothing and prints one line for each: the commit, its crates, whether all were proved with
#     this machine's kit, and the CPU seconds (user and system) that `rt all verdict` took.
#
# The times of the landing notes are made with it; those up to the unfinished 5.0.3 with `rt prove` of an older kit, whose commits this one does not
# prove. Run it on a machine that does nothing else. RT_JOBS is the number of
# checks at a time, two if it is not set. Each commit is proved in a new clone, which is removed afterwards.
set -u
cd "$(dirname "$0")/.." || exit 2
[ $# -gt 0 ] || { echo "usage: sh docs/times.sh COMMIT..." >&2; exit 2; }
work=$(mktemp -d) || exit 2
trap 'rm -rf "$work"' EXIT
trap 'exit 2' HUP INT TERM
rt version
for commit in "$@"; do
    git clone -q . "$work/tree" && git -C "$work/tree" checkout -q "$commit" || exit 2
    RT_JOBS=${RT_JOBS:-2} python3 - "$work/tree" "$commit" <<'PYTHON'
import os, resource, subprocess, sys

tree, commit = sys.argv[1:]
result = subprocess.run(["rt", "all", "verdict", "--jobs", os.environ["RT_JOBS"]], cwd=tree, stdout=subprocess.PIPE, stderr=subprocess.STDOUT)
used = resource.getrusage(resource.RUSAGE_CHILDREN)
crates = sum(1 for line in open(os.path.join(tree, "crates.txt")) if ":" in line.split("#")[0])
verdict = "proved" if result.returncode == 0 else "not proved (exit %d)" % result.returncode
print("%s  %d crates  %s  %.0f s" % (commit, crates, verdict, used.ru_utime + used.ru_stime), flush=True)
if result.returncode:
    lines = result.stdout.decode(errors="replace").splitlines()
    print("\n".join("    " + line[:300] for line in lines[-8:]), flush=True)
PYTHON
    rm -rf "$work/tree"
done
