/* The plan of rows that depend on each other, in plain C: levels, a longest chain, tasks cut by weight, and
   the waits that are kept. plan.c and end_to_end.c stand on it; the proved one is in crates/plan_build.
   There are at most 2^24 rows of weights 1 to 2^32, 1 to 64 workers and fewer than 2^32 pairs: all weights
   together, times the workers, have 62 bits. */
#ifndef SCHEDULE_H
#define SCHEDULE_H
#include <stddef.h>
#include <stdint.h>

typedef uint32_t u32;
typedef uint64_t u64;

/* lists in one array: list k is flat[starts[k]] up to but not including flat[starts[k + 1]] */
typedef struct { u32 *starts, *flat; } lists;

/* the second row depends on the first, which is the earlier one */
typedef struct { u32 first, second; } pair;

/* number `place` of its worker; its rows are flat[begin] up to but not including flat[end] of the levels */
typedef struct { u32 worker, place, begin, end; } task;

/* until this worker has done so many tasks */
typedef struct { u32 worker, count; } look;

typedef struct {
  u32 rows, workers;
  u32 edges;      /* pairs without repeats */
  u32 levels;
  lists level;    /* the rows of each level, ascending */
  u32 *chain;     /* a row of each level, each depending on the one before */
  u32 tasks;
  task *task;     /* worker after worker, each one's by level */
  u32 cross;      /* pairs of tasks of different workers that rows join */
  u32 waits;
  u32 *looks_of;  /* the looks of task t are looks[looks_of[t]] up to but not including looks[looks_of[t + 1]] */
  look *looks;    /* of each task by worker, at most one each */
} schedule;

/* memory for so many things, or the end of the program; zeros has it filled with 0 */
void *room(size_t count, size_t size);
void *zeros(size_t count, size_t size);

/* the plan of these pairs, with a weight for each row */
schedule plan(u32 rows, const pair *pairs, u32 count, const u64 *weight, u32 workers);

#endif
