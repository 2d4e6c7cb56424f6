/* What each timed function is given: a square of cells at a stride, and a source of copies. */
#include <stddef.h>
#include <stdint.h>

struct job {
    void *cells, *source;
    size_t side, stride, source_stride, len, source_len;
    uint64_t answer;
};

typedef void work(struct job *);
