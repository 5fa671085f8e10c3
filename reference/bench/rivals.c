// The rivals that were built. CLANG says that clang was there to build its own.
#include "rival.h"

rival_run flat_gcc_O2, flat_gcc_O3, flat_clang_O3, plain_gcc_O2, plain_gcc_O3, plain_clang_O3;

static const struct rival built[] = {
    {"flat gcc -O2", flat_gcc_O2},
    {"flat gcc -O3", flat_gcc_O3},
#ifdef CLANG
    {"flat clang -O3", flat_clang_O3},
#endif
    {"plain gcc -O2", plain_gcc_O2},
    {"plain gcc -O3", plain_gcc_O3},
#ifdef CLANG
    {"plain clang -O3", plain_clang_O3},
#endif
};

const struct rival *rivals(size_t *count) {
    *count = sizeof built / sizeof *built;
    return built;
}
