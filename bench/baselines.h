#include <stdint.h>

typedef uint64_t step(uint64_t high, uint64_t low, uint64_t password);

/* PRESENT_AHEAD has the key schedule of the proved code. */
enum kind { SPECK, PRESENT, PRESENT_AHEAD, KINDS };

struct baseline {
    const char *name;
    enum kind kind;
    step *run;
};

/* One list for each compiler, the same functions in the same order; the last has no name. */
extern const struct baseline by_gcc[], by_clang[];
