/* The plan of a graph made from counters, in plain C: the counts that crates/bench_plan prints.
   Each row has weight 1, as there. Compiled with schedule.c.
   Words: SHAPE ROWS COLUMNS WORKERS time. The time is from the pairs to the schedule. */
#include "schedule.h"
#include <stdio.h>
#include <stdlib.h>
#include <time.h>

static u32 grid_neighbour(u32 row, u32 columns, int above) {
  int has_above = row >= columns, has_left = row % columns != 0;
  return has_above && (above || !has_left) ? row - columns : row - 1;
}

static u32 drawn(u32 row, u32 number) {
  u32 state = row * 7 + number;
  state = (state ^ state >> 16) * 2146121005u;
  state = (state ^ state >> 15) * 2221713035u;
  return (state ^ state >> 16) % row;
}

static u32 first_of(char shape, u32 row, u32 columns, u32 number) {
  u32 back = 1 + number % 3;
  if (shape == 'c') return row > back ? row - back : 0;
  if (shape == 'g') return grid_neighbour(row, columns, number % 2 == 0);
  if (shape == 'r') return drawn(row, number);
  return number < row - 1 ? number : row - 1;
}

static long long nanoseconds(void) {
  struct timespec now;
  clock_gettime(CLOCK_MONOTONIC, &now);
  return (long long)now.tv_sec * 1000000000 + now.tv_nsec;
}

int main(int words, char **word) {
  if (words < 5) return 2;
  char shape = word[1][0];
  u32 n = strtoul(word[2], 0, 10), columns = strtoul(word[3], 0, 10), workers = strtoul(word[4], 0, 10);
  if (!n || n > 1 << 24 || !columns || !workers || workers > 64) return 2;
  u32 each = shape == 'r' ? 7 : 4, many = each * (n - 1);
  pair *pairs = room(many, sizeof *pairs);
  for (u32 k = 0; k < many; k++) {
    u32 row = 1 + k / each;
    pairs[k] = (pair){first_of(shape, row, columns, k % each), row};
  }
  u64 *weight = room(n, sizeof *weight);
  for (u32 j = 0; j < n; j++) weight[j] = 1;
  long long begin = nanoseconds();
  schedule s = plan(n, pairs, many, weight, workers);
  long long end = nanoseconds();
  printf("rows %u pairs %u edges %u\n", n, many, s.edges);
  printf("levels %u chain %u tasks %u\n", s.levels, s.levels, s.tasks);
  printf("cross %u waits %u\n", s.cross, s.waits);
  if (words > 5) printf("milliseconds %lld\n", (end - begin) / 1000000);
  return 0;
}
