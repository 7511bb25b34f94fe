/* calls.c: the calls of the C library, timed as tp_bench times those of the manager. Prints NAME K NANOSECONDS CALLS. */
#define _GNU_SOURCE
#include <covetrivet.h>
#include <pthread.h>
#include <stdio.h>
#include <stdlib.h>
#include <string.h>
#include <time.h>

enum { ROWS = 256, MOST = 16 };
static covetrivet_manager manager;
static covetrivet_caller callers[MOST];

static uint64_t now(void) {
  struct timespec t;
  clock_gettime(CLOCK_MONOTONIC, &t);
  return (uint64_t)t.tv_sec * 1000000000u + (uint64_t)t.tv_nsec;
}
static void show(const char *name, int k, uint64_t since, uint64_t until, uint64_t calls) {
  printf("%s %d %llu %llu\n", name, k, (unsigned long long)(until - since), (unsigned long long)calls);
}
static void make(uint16_t parts, uint8_t attempts) {
  const covetrivet_limits limits = { parts, ROWS, 1024, 0, attempts };
  if (covetrivet_make(&limits, &manager)) exit(1);
  for (int k = 0; k < parts; k++)
    if (covetrivet_open(&manager, &callers[k])) exit(1);
}
static void drop(void) {
  for (int k = 0; k < MOST; k++) covetrivet_close(&manager, &callers[k]);
  covetrivet_give_up(&manager);
}

static uint64_t submits(covetrivet_caller *me, uint8_t stage, int n) {
  uint64_t done = 0;
  uint32_t id;
  for (int k = 0; k < n; k++) {
    const uint64_t body[4] = { 0, (uint64_t)k, 0, 0 };
    done += covetrivet_submit(me, stage, body, &id) == COVETRIVET_OK;
  }
  return done;
}
static uint64_t turns(covetrivet_caller *me, uint8_t stage, int n, int bare, int next) {
  uint64_t done = 0;
  for (int k = 0; k < n; k++) {
    covetrivet_work work;
    covetrivet_born born;
    covetrivet_draft draft;
    if (next ? covetrivet_claim_next(me, stage, &work) : covetrivet_claim(me, stage, &work)) continue;
    memcpy(draft.body, work.element.body, sizeof draft.body);
    draft.stage = COVETRIVET_REPLIES;
    done += covetrivet_commit(me, &draft, !bare, &born) == COVETRIVET_OK;
  }
  return done;
}

static void small(void) {
  uint64_t t;
  make(2, 7);
  t = now();
  submits(&callers[0], 1, ROWS);
  show("submit", 0, t, now(), ROWS);
  t = now();
  for (uint64_t k = 0; k < ROWS; k++) {
    const uint64_t body[4] = { 7, k, 7, 7 };
    uint32_t id;
    covetrivet_submit(&callers[1], 2, body, &id);
  }
  show("submit_full", 0, t, now(), ROWS);
  t = now();
  for (uint32_t id = 0; id < ROWS; id++) {
    covetrivet_look look;
    covetrivet_read(&callers[0], id, &look);
  }
  show("read_waiting", 0, t, now(), ROWS);
  t = now();
  for (uint32_t id = 0; id < ROWS; id++) {
    uint8_t aborted;
    covetrivet_kill(&callers[0], id, &aborted);
  }
  show("kill_waiting", 0, t, now(), ROWS);
  drop();
  for (int kind = 0; kind < 3; kind++) {
    static const char *const names[] = { "turn", "turn_bare", "turn_next" };
    make(2, 7);
    submits(&callers[0], 1, ROWS);
    for (int k = 0; k < 16; k++) {
      t = now();
      turns(&callers[1], 1, 16, kind > 0, kind == 2);
      show(names[kind], k * 16, t, now(), 16);
    }
    drop();
  }
}

/* What each thread does, and when it began and ended. */
struct race {
  int number, kind, threads, own;
  uint64_t began, ended, done;
};
static int gate;
static void *race_one(void *at) {
  struct race *it = (struct race *)at;
  __atomic_fetch_add(&gate, 1, __ATOMIC_SEQ_CST);
  while (__atomic_load_n(&gate, __ATOMIC_SEQ_CST) < it->threads) {}
  it->began = now();
  if (it->kind == 2)
    for (int k = 0; k < 4; k++) it->done += submits(&callers[it->number * 4 + k], 1, ROWS);
  else
    it->done = turns(&callers[4 + it->number], (uint8_t)(it->own ? 1 + it->number : 1), ROWS, it->kind, 0);
  it->ended = now();
  return NULL;
}
static void race(const char *name, int threads, int kind, int own) {
  pthread_t all[4];
  struct race its[4];
  uint64_t began = UINT64_MAX, ended = 0, done = 0;
  make(MOST, 3);
  if (kind != 2)
    for (int k = 0; k < threads; k++) submits(&callers[k], (uint8_t)(own ? 1 + k : 1), ROWS);
  gate = 0;
  for (int k = 0; k < threads; k++) {
    its[k] = (struct race){ k, kind, threads, own, 0, 0, 0 };
    if (pthread_create(&all[k], NULL, race_one, &its[k])) exit(1);
  }
  for (int k = 0; k < threads; k++) {
    pthread_join(all[k], NULL);
    if (its[k].began < began) began = its[k].began;
    if (its[k].ended > ended) ended = its[k].ended;
    done += its[k].done;
  }
  show(name, threads, began, ended, done);
  drop();
}

int main(void) {
  for (int k = 0; k < 4; k++) small();
  for (int threads = 1; threads <= 4; threads *= 2) {
    race("submit_threads", threads, 2, 0);
    race("turn_own", threads, 0, 1);
    race("turn_bare_own", threads, 1, 1);
    if (threads == 1) continue;
    race("turn_shared", threads, 0, 0);
    race("turn_bare_shared", threads, 1, 0);
  }
  return 0;
}
