#!/bin/sh
# The fuzz target for hosts, for a fixed number of rounds: by itself under the sanitizers, by libFuzzer, and under valgrind, which
# sees the library's own reads and writes too; each where it is there. Then eight threads, under a race detector likewise.
cd "$(dirname "$0")/.." || exit 2
work=$(mktemp -d) || exit 2
trap 'rm -rf "$work"' EXIT
sh tools/archive || exit 1

# has FLAG..: whether the compiler makes programs with it that run
echo 'int main(void) { return 0; }' >"$work/none.c"
has() { "${CC:-cc}" "$@" "$work/none.c" -o "$work/none" 2>/dev/null && sh tools/exec "$work/none" 2>/dev/null; }
# run NAME COMMAND..
run() {
    name=$1
    shift
    "$@" >"$work/out" 2>&1 || { tail -n 30 "$work/out"; echo "fuzz: FAILED $name"; exit 1; }
    echo "$(tail -n 1 "$work/out"), $name"
}
own=
[ "${AOC_FOR:-$(uname -m)}" = "$(uname -m)" ] && [ -z "$CROSS" ] && own=1

sh tools/cc "$work/fuzz" tests/fuzz.c -DAOC_FUZZ_MAIN && run "plain" sh tools/exec "$work/fuzz" 200000 || exit 1
sanitizers="-fsanitize=address,undefined -fno-sanitize-recover=all -g"
# shellcheck disable=SC2086
if [ -n "$own" ] && has $sanitizers; then
    sh tools/cc "$work/fuzz-asan" tests/fuzz.c -DAOC_FUZZ_MAIN $sanitizers && run "ASan and UBSan" "$work/fuzz-asan" 40000 7 || exit 1
fi
if [ -n "$own" ] && command -v clang >/dev/null && CC=clang sh tools/cc "$work/libfuzzer" tests/fuzz.c -fsanitize=fuzzer,address,undefined -g 2>/dev/null; then
    run "libFuzzer" sh -c "\"$work/libfuzzer\" -runs=20000 -seed=1 -max_len=300 -verbosity=0 && echo fuzz: 20000 rounds"
    run "libFuzzer, up to 70,000 octets" sh -c "\"$work/libfuzzer\" -runs=1000 -seed=2 -max_len=70000 -len_control=0 -verbosity=0 && echo fuzz: 1000 rounds"
fi
memcheck=
[ -n "$own" ] && command -v valgrind >/dev/null && memcheck=1
if [ -n "$memcheck" ]; then
    run "valgrind" valgrind -q --error-exitcode=1 "$work/fuzz" 1000 3
fi

sh tools/cc "$work/threads" tests/threads.c -pthread && run "plain" sh tools/exec "$work/threads" || exit 1
if [ -n "$own" ] && has -fsanitize=thread; then
    sh tools/cc "$work/threads-tsan" tests/threads.c -pthread -fsanitize=thread -g && run "TSan" "$work/threads-tsan" 300 || exit 1
fi
if [ -n "$memcheck" ]; then
    run "DRD" valgrind -q --tool=drd --error-exitcode=1 "$work/threads" 30
fi
