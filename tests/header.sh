#!/bin/sh
# The headers say nothing to a strict compiler, as C11, C17, C++11 to C++20: for CC and CXX, and for gcc and clang where they are there.
# A result that is dropped is told by each of them, and (void) says that it is meant.
cd "$(dirname "$0")/.." || exit 2
work=$(mktemp -d) || exit 2
trap 'rm -rf "$work"' EXIT
flags="-Wall -Wextra -Wpedantic -Wconversion -Wshadow -Wcast-qual -Werror -Iinclude -fsyntax-only"
echo '#include "aoc_text.h"' >"$work/unit.c"

# strict COMPILER LANGUAGE FLAG STANDARD..: with and without what the optimizer finds
strict() {
    compiler=$1 language=$2 flag=$3
    shift 3
    command -v "$compiler" >/dev/null || return 0
    for standard; do
        for level in -O0 -O2; do
            # shellcheck disable=SC2086
            "$compiler" $flags $flag -x "$language" "-std=$standard" "$level" "$work/unit.c" || { echo "header: $compiler $standard"; exit 1; }
        done
        echo "header: clean for $compiler as $standard"
        # shellcheck disable=SC2086
        if "$compiler" $flags $flag -x "$language" "-std=$standard" "$work/dropped.c" 2>"$work/err" || [ "$(grep -c "aoc_clear\|aoc_next" "$work/err")" -lt 2 ]; then
            cat "$work/err"
            echo "header: $compiler $standard says nothing of a dropped result"
            exit 1
        fi
        # shellcheck disable=SC2086
        "$compiler" $flags $flag -x "$language" "-std=$standard" -DMEANT "$work/dropped.c" || { echo "header: $compiler $standard, (void)"; exit 1; }
    done
}
cat >"$work/dropped.c" <<END
#include "aoc.h"
#ifdef MEANT
#define DROP (void)
#else
#define DROP
#endif
void host(aoc_account *call, const uint8_t *element, size_t length);
void host(aoc_account *call, const uint8_t *element, size_t length)
{
    size_t place = AOC_FIRST_PLACE;
    aoc_answer answer;
    DROP aoc_clear(call);                                       /* of the library */
    DROP aoc_next(element, length, &place, &answer);            /* inline */
}
END
for compiler in $(printf '%s\n' "${CC:-cc}" gcc clang | sort -u); do strict "$compiler" c "" c11 c17; done
for compiler in $(printf '%s\n' "${CXX:-c++}" g++ clang++ | sort -u); do strict "$compiler" c++ -Wold-style-cast c++11 c++14 c++17 c++20; done
# each header by itself
for header in aoc aoc_text; do
    echo "#include \"$header.h\"" >"$work/unit.c"
    strict "${CC:-cc}" c "" c11
done
