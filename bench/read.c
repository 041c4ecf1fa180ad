/* Reads the text of a matrix of whole numbers as the reader in crates/mtx_read does, with every refusal.
   Words: NUMBER of entries, TURNS. It makes the same text as the program bench_read, reads it TURNS times
   and prints the least time of one reading in nanoseconds. */
#include <ctype.h>
#include <stdint.h>
#include <stdio.h>
#include <stdlib.h>
#include <string.h>
#include <time.h>

enum cause { FINE, HEADER, FIELD, SIZE, WORDS, NUMBER, WIDE, RANGE, ABOVE, ON, SHORT, EXTRA, BIG, MEMORY };
enum symmetry { GENERAL, SYMMETRIC, SKEW };

typedef struct { uint32_t row, column; int64_t value; } triple;
typedef struct { uint32_t rows, columns; triple *entries; size_t count; } matrix;
typedef struct { const uint8_t *at, *end; } span;
typedef struct { const uint8_t *at, *end; uint32_t line; } cursor;

static int blank(uint8_t b) { return b == ' ' || b == '\t'; }

static span next_word(const uint8_t **at, const uint8_t *end) {
  const uint8_t *p = *at;
  while (p < end && blank(*p)) p++;
  span w = {p, p};
  while (p < end && !blank(*p)) p++;
  w.end = p;
  *at = p;
  return w;
}

static int is_word(span w, const char *text) {
  size_t n = strlen(text);
  if ((size_t)(w.end - w.at) != n) return 0;
  for (size_t i = 0; i < n; i++)
    if (tolower(w.at[i]) != tolower((uint8_t)text[i])) return 0;
  return 1;
}

/* the next line without its end; the cursor goes after it */
static span next_line(cursor *c) {
  const uint8_t *feed = memchr(c->at, '\n', (size_t)(c->end - c->at));
  span l = {c->at, feed ? feed : c->end};
  c->at = feed ? feed + 1 : c->end;
  if (l.end > l.at && l.end[-1] == '\r') l.end--;
  return l;
}

/* an optional sign and digits: 0 none, 1 a number, 2 one of more than 64 bits */
static int number(span w, int64_t *out) {
  const uint8_t *p = w.at;
  int minus = 0;
  if (p < w.end && (*p == '+' || *p == '-')) minus = *p++ == '-';
  if (p == w.end) return 0;
  uint64_t v = 0;
  int wide = 0;
  for (; p < w.end; p++) {
    unsigned d = *p - '0';
    if (d > 9) return 0;
    if (v > (UINT64_MAX - d) / 10) wide = 1;
    v = v * 10 + d;
  }
  if (wide || v > (uint64_t)INT64_MAX + (uint64_t)minus) return 2;
  *out = minus ? (int64_t)(0 - v) : (int64_t)v;
  return 1;
}

static int size_number(span w, int64_t *out) {
  if (w.end == w.at || w.end - w.at > 18) return 0;
  for (const uint8_t *p = w.at; p < w.end; p++)
    if (*p < '0' || *p > '9') return 0;
  return number(w, out) == 1;
}

static enum cause push(matrix *m, size_t *room, uint32_t i, uint32_t j, int64_t a) {
  if (m->count == *room) {
    size_t more = *room ? 2 * *room : 4;
    triple *grown = realloc(m->entries, more * sizeof *grown);
    if (!grown) return MEMORY;
    m->entries = grown;
    *room = more;
  }
  m->entries[m->count++] = (triple){i, j, a};
  return FINE;
}

/* digits at p that stay below 10^18, or a null pointer */
static const uint8_t *digits(const uint8_t *p, const uint8_t *end, uint64_t *out) {
  uint64_t v = 0;
  const uint8_t *from = p;
  for (; p < end && (unsigned)(*p - '0') <= 9; p++) {
    if (v >= 100000000000000000ull) return NULL;
    v = v * 10 + (uint64_t)(*p - '0');
  }
  *out = v;
  return p == from ? NULL : p;
}

/* a plain entry line, read byte by byte: the place after it, or a null pointer that says nothing */
static const uint8_t *plain(const uint8_t *p, const uint8_t *end, int pattern, int64_t n[3]) {
  uint64_t v;
  while (p < end && blank(*p)) p++;
  for (int k = 0; k < (pattern ? 2 : 3); k++) {
    int minus = 0;
    if (k) {
      if (p == end || !blank(*p)) return NULL;
      while (p < end && blank(*p)) p++;
    }
    if (k == 2 && p < end && (*p == '+' || *p == '-')) minus = *p++ == '-';
    if (!(p = digits(p, end, &v))) return NULL;
    n[k] = minus ? -(int64_t)v : (int64_t)v;
  }
  while (p < end && blank(*p)) p++;
  if (p == end) return p;
  if (*p == '\n') return p + 1;
  return *p == '\r' && p + 1 < end && p[1] == '\n' ? p + 2 : NULL;
}

/* row, column and value of a line by its words; skipped is set for a comment and for a line without words */
static enum cause by_words(span l, int pattern, int64_t n[3], int *skipped) {
  const uint8_t *at = l.at;
  span w[4];
  int count = 0, want = pattern ? 2 : 3, wide = 0;
  while (count < 4) {
    span x = next_word(&at, l.end);
    if (x.at == x.end) break;
    w[count++] = x;
  }
  if ((*skipped = count == 0 || *w[0].at == '%')) return FINE;
  if (count != want) return WORDS;
  n[2] = 1;
  for (int k = 0; k < want; k++) {
    int said = number(w[k], &n[k]);
    if (!said) return NUMBER;
    if (said == 2) {
      n[k] = 0;
      wide |= k == 2;
    }
  }
  return wide ? WIDE : FINE;
}

static enum cause read_header(span l, int *pattern, enum symmetry *symmetry, uint64_t *detail) {
  const uint8_t *at = l.at;
  span w[6];
  int count = 0;
  while (count < 6) {
    span x = next_word(&at, l.end);
    if (x.at == x.end) break;
    w[count++] = x;
  }
  if (count != 5 || !is_word(w[0], "%%MatrixMarket") || !is_word(w[1], "matrix")) return HEADER;
  *detail = 3;
  if (!is_word(w[2], "coordinate")) return FIELD;
  *detail = 4;
  *pattern = is_word(w[3], "pattern");
  if (!*pattern && !is_word(w[3], "integer")) return FIELD;
  *detail = 5;
  if (is_word(w[4], "general")) *symmetry = GENERAL;
  else if (is_word(w[4], "symmetric")) *symmetry = SYMMETRIC;
  else if (!*pattern && is_word(w[4], "skew-symmetric")) *symmetry = SKEW;
  else return FIELD;
  return FINE;
}

static enum cause read_size(span l, enum symmetry symmetry, int64_t n[3]) {
  const uint8_t *at = l.at;
  for (int k = 0; k < 3; k++)
    if (!size_number(next_word(&at, l.end), &n[k])) return SIZE;
  span more = next_word(&at, l.end);
  if (more.at != more.end || (symmetry != GENERAL && n[0] != n[1])) return SIZE;
  return n[0] > 1 << 20 || n[1] > 1 << 20 || n[2] > 1 << 23 ? BIG : FINE;
}

static enum cause add(matrix *m, size_t *room, enum symmetry symmetry, const int64_t n[3]) {
  if (n[0] < 1 || n[0] > m->rows || n[1] < 1 || n[1] > m->columns) return RANGE;
  if (symmetry != GENERAL && n[1] > n[0]) return ABOVE;
  if (symmetry == SKEW && n[1] == n[0]) return ON;
  uint32_t i = (uint32_t)n[0] - 1, j = (uint32_t)n[1] - 1;
  enum cause c = push(m, room, i, j, n[2]);
  if (c == FINE && symmetry != GENERAL && i != j)
    c = push(m, room, j, i, symmetry == SKEW ? (int64_t)(0 - (uint64_t)n[2]) : n[2]);
  return c;
}

static enum cause read_matrix(const uint8_t *bytes, size_t length, matrix *m, uint64_t *detail) {
  int pattern = 0, skipped;
  enum symmetry symmetry = GENERAL;
  int64_t size[3], n[3];
  size_t room = 0;
  uint64_t have = 0;
  cursor c = {bytes, bytes + length, 1};
  *m = (matrix){0, 0, NULL, 0};
  if (length > 1u << 28) return BIG;
  if (!length) return HEADER;
  enum cause cause = read_header(next_line(&c), &pattern, &symmetry, detail);
  if (cause) return cause;
  for (;;) {
    *detail = ++c.line;
    if (c.at == c.end) return SIZE;
    span l = next_line(&c), w;
    const uint8_t *at = l.at;
    w = next_word(&at, l.end);
    if (w.at == w.end || *w.at == '%') continue;
    if ((cause = read_size(l, symmetry, size))) return cause;
    break;
  }
  m->rows = (uint32_t)size[0];
  m->columns = (uint32_t)size[1];
  while (c.at < c.end) {
    *detail = ++c.line;
    const uint8_t *after = plain(c.at, c.end, pattern, n);
    if (after) {
      c.at = after;
      if (pattern) n[2] = 1;
    } else {
      cause = by_words(next_line(&c), pattern, n, &skipped);
      if (skipped) continue;
    }
    if (have == (uint64_t)size[2]) return EXTRA;
    if (cause || (cause = add(m, &room, symmetry, n))) return cause;
    have++;
  }
  return have < (uint64_t)size[2] ? SHORT : FINE;
}

static double now(void) {
  struct timespec t;
  clock_gettime(CLOCK_MONOTONIC, &t);
  return (double)t.tv_sec * 1e9 + (double)t.tv_nsec;
}

int main(int argc, char **argv) {
  uint32_t entries = argc > 1 ? (uint32_t)strtoul(argv[1], NULL, 10) : 1000;
  int turns = argc > 2 ? atoi(argv[2]) : 1;
  uint8_t *text = malloc((size_t)entries * 32 + 128), *p = text;
  if (!text) return 1;
  p += sprintf((char *)p, "%%%%MatrixMarket matrix coordinate integer general\n1000000 1000000 %u\n", entries);
  for (uint32_t k = 0; k < entries; k++)
    p += sprintf((char *)p, "%u %u %lld\n", k * 613u % 1000000 + 1, k * 100003u % 1000000 + 1, (long long)(k * 2654435761u) - 2000000000ll);
  double least = 0;
  for (int t = 0; t < turns; t++) {
    matrix m;
    uint64_t detail = 0, sum = 0;
    double start = now();
    enum cause cause = read_matrix(text, (size_t)(p - text), &m, &detail);
    double taken = now() - start;
    for (size_t k = 0; k < m.count; k++) sum += m.entries[k].row + m.entries[k].column + (uint64_t)m.entries[k].value;
    if (t == 0) {
      if (cause) printf("refused %d %llu\n", (int)cause, (unsigned long long)detail);
      else printf("bytes %zu count %zu sum %lld\n", (size_t)(p - text), m.count, (long long)sum);
    }
    if (t == 0 || taken < least) least = taken;
    free(m.entries);
  }
  printf("nanoseconds %.0f\n", least);
  free(text);
  return 0;
}
