/* The five properties of forward substitution over the 5-point grid, in one pass each over the same
 * arrays as the proved check.
 *
 * usage: properties grid SIDE TURNS */
#include <stdint.h>
#include <stdio.h>
#include <stdlib.h>
#include <time.h>

typedef int64_t word;

static void *room(size_t many) {
    void *p = malloc((many ? many : 1) * sizeof(word));
    if (!p) { fputs("memory\n", stderr); exit(1); }
    return p;
}

static int in_range(const word *f, size_t many, word lo, word hi) {
    for (size_t k = 0; k < many; k++)
        if (f[k] < lo || f[k] >= hi) return 0;
    return 1;
}

static int rises(const word *p, size_t many) {
    for (size_t k = 0; k + 1 < many; k++)
        if (p[k + 1] < p[k]) return 0;
    return 1;
}

/* a segment is cut to the places that f has */
static int is_sorted(const word *f, size_t many, const word *p, size_t bounds) {
    for (size_t i = 0; i + 1 < bounds; i++) {
        word from = p[i] < 0 ? 0 : p[i], to = p[i + 1] > (word)many ? (word)many : p[i + 1];
        for (word k = from; k + 1 < to; k++)
            if (f[k] >= f[k + 1]) return 0;
    }
    return 1;
}

static word entry(const word *f, size_t many, word at) { return at >= 0 && at < (word)many ? f[at] : 0; }

static int is_diagonal(const word *d, size_t rows, const word *f, size_t many, const word *p, size_t bounds) {
    for (size_t i = 0; i < rows; i++) {
        if (d[i] < entry(p, bounds, i) || d[i] >= entry(p, bounds, i + 1)) return 0;
        if (entry(f, many, d[i]) != (word)i) return 0;
    }
    return 1;
}

int main(int words, char **word_at) {
    if (words < 4) return 2;
    word side = atoll(word_at[2]), turns = atoll(word_at[3]), n = side * side, nnz = 0;
    if (side < 1) return 2;
    word *ptr = room(n + 1), *col = room(5 * n), *diag = room(n);
    ptr[0] = 0;
    for (word row = 0; row < n; row++) {
        word across = row % side;
        if (row >= side) col[nnz++] = row - side;
        if (across > 0) col[nnz++] = row - 1;
        diag[row] = nnz;
        col[nnz++] = row;
        if (across < side - 1) col[nnz++] = row + 1;
        if (row < n - side) col[nnz++] = row + side;
        ptr[row + 1] = nnz;
    }
    int64_t least = INT64_MAX;
    int passed = 1;
    for (word turn = 0; turn < turns; turn++) {
        struct timespec begin, end;
        clock_gettime(CLOCK_MONOTONIC, &begin);
        passed = in_range(ptr, n + 1, 0, nnz + 1) && in_range(col, nnz, 0, n) && rises(ptr, n + 1)
            && rises(ptr, n + 1) && is_sorted(col, nnz, ptr, n + 1)
            && is_diagonal(diag, n, col, nnz, ptr, n + 1);
        clock_gettime(CLOCK_MONOTONIC, &end);
        int64_t took = (end.tv_sec - begin.tv_sec) * 1000000000LL + (end.tv_nsec - begin.tv_nsec);
        if (took < least) least = took;
    }
    printf("n %lld nnz %lld\n%s\n", (long long)n, (long long)nnz, passed ? "passed" : "broken");
    fprintf(stderr, "nanoseconds %lld\n", (long long)least);
    return 0;
}
