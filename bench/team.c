/* Forward substitution with division by several workers, beside which the team of crates/p2p_team is timed.
   Words: TURNS MATRIX WORKERS VECTOR. Each worker goes through its tasks of the plan: it looks at the done
   words of those that it waits for, runs the rows, and raises its own. The words that workers share are read and
   written as the proved team does it: a sequentially consistent load or store for each read and each write of x.
   The sum of the matrix, the vector and x goes to standard output, the least nanoseconds of a turn to standard
   error. Compiled with forward.c and schedule.c, and with threads. */
#include "forward.h"
#include <pthread.h>
#include <sched.h>
#include <stdatomic.h>
#include <stdio.h>
#include <stdlib.h>
#include <time.h>

typedef _Atomic int64_t word;

/* what all workers share */
typedef struct {
  const rows *a;
  const schedule *s;
  const int64_t *b;
  word *x, *done;
} board;

typedef struct {
  const board *on;
  u32 number;
} worker;

static void wait_for(word *done, int64_t count) {
  for (u32 spins = 0; atomic_load(done) < count;)
    if (spins < 64) spins++;
    else sched_yield();
}

static void run_row(const board *on, u32 i) {
  const rows *a = on->a;
  word *x = on->x;
  atomic_store(&x[i], on->b[i]);
  for (u32 p = a->ptr[i]; p < a->diag[i]; p++) {
    u64 own = (u64)atomic_load(&x[i]);
    u64 other = (u64)atomic_load(&x[a->col[p]]);
    atomic_store(&x[i], (int64_t)(own - (u64)a->val[p] * other));
  }
  atomic_store(&x[i], quotient(atomic_load(&x[i]), a->val[a->diag[i]]));
}

static void run_task(const board *on, u32 t) {
  const schedule *s = on->s;
  const task *now = &s->task[t];
  for (u32 k = s->looks_of[t]; k < s->looks_of[t + 1]; k++) wait_for(&on->done[s->looks[k].worker], s->looks[k].count);
  for (u32 k = now->begin; k < now->end; k++) run_row(on, s->level.flat[k]);
  atomic_store(&on->done[now->worker], (int64_t)now->place + 1);
}

static void *run_worker(void *of) {
  const worker *w = of;
  const schedule *s = w->on->s;
  u32 t = 0;
  while (t < s->tasks && s->task[t].worker < w->number) t++;
  for (; t < s->tasks && s->task[t].worker == w->number; t++) run_task(w->on, t);
  return 0;
}

static void run_team(const board *on) {
  pthread_t threads[64];
  worker workers[64];
  u32 many = on->s->workers;
  for (u32 k = 0; k < many; k++) workers[k] = (worker){on, k};
  for (u32 k = 1; k < many; k++)
    if (pthread_create(&threads[k], 0, run_worker, &workers[k])) refuse("threads", "can't be had");
  run_worker(&workers[0]);
  for (u32 k = 1; k < many; k++) pthread_join(threads[k], 0);
}

static u64 now(void) {
  struct timespec t;
  clock_gettime(CLOCK_MONOTONIC, &t);
  return (u64)t.tv_sec * 1000000000u + (u64)t.tv_nsec;
}

static u64 sum_of(const int64_t *words, size_t many) {
  u64 sum = 0;
  for (size_t k = 0; k < many; k++) sum += (u64)words[k];
  return sum;
}

/* the nanoseconds of a turn from words that are all 0, and the sum of x after it */
static u64 turn(const board *on, u64 *sum) {
  for (u32 i = 0; i < on->a->n; i++) atomic_store_explicit(&on->x[i], 0, memory_order_relaxed);
  for (u32 k = 0; k < on->s->workers; k++) atomic_store(&on->done[k], 0);
  u64 start = now();
  run_team(on);
  u64 taken = now() - start;
  *sum = 0;
  for (u32 i = 0; i < on->a->n; i++) *sum += (u64)atomic_load_explicit(&on->x[i], memory_order_relaxed);
  return taken;
}

int main(int argc, char **argv) {
  if (argc != 5) refuse("usage", "team TURNS MATRIX WORKERS VECTOR");
  u32 turns = (u32)strtoul(argv[1], 0, 10), workers = (u32)strtoul(argv[3], 0, 10);
  if (turns < 1 || workers < 1 || workers > 64) refuse("usage", "at least one turn, and 1 to 64 workers");
  rows a = read_matrix(argv[2]);
  int64_t *b = read_vector(argv[4], a.n);
  schedule s = planned(&a, workers);
  board on = {&a, &s, b, room(a.n, sizeof(word)), room(64, sizeof(word))};
  u64 least = UINT64_MAX, sum = 0;
  for (u32 k = 0; k < turns; k++) {
    u64 taken = turn(&on, &sum);
    if (taken < least) least = taken;
  }
  sum += sum_of(a.val, a.ptr[a.n]) + sum_of(b, a.n);
  printf("sum %lld\n", (long long)sum);
  fprintf(stderr, "team %llu\n", (unsigned long long)least);
  return 0;
}
