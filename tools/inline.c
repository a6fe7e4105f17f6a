/* The inline functions of the headers under their own names, for languages that see the linker's names alone: tools/install
 * compiles this file into the library that it installs. It is C: tested, not proved. */
#define AOC_INLINE
#include "aoc_text.h"
