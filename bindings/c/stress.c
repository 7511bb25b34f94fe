/* stress.c: four threads call one manager at random, and go on in the next one by a rollover, ROUNDS times over.
 * What they have in hand goes on in their hands. After each round every element's status is what the threads were told, and so is the account; after a rollover
 * each element that was alive stands as it stood. The word behind ROUNDS seeds the random numbers. */
#include "check.h"
#include <pthread.h>
#include <string.h>

enum { THREADS = 4, CALLS = 1500, ROWS = 256, SPARE = 20, IDS = THREADS * ROWS + 8 * SPARE, MANY = IDS / 2 };
enum { BORN = 1, CONSUMED = 2, KILLED = 4 };

static const covetrivet_limits limits = { THREADS, ROWS, 1024, SPARE, 3 };
static covetrivet_caller callers[THREADS];
/* whether each has a unit of work open, and the element that it claimed */
static int busy_of[THREADS];
static uint32_t held_of[THREADS];
static unsigned char told[IDS];
/* what was submitted: the body's first word and the stage, once it is told that the element is born */
static uint64_t bodies[IDS];
static uint8_t stages[IDS];
static unsigned seed;
static long made, rolled, in_hand, rollovers;

static unsigned pick(unsigned *state, unsigned below) { return (unsigned)rand_r(state) % below; }

static void tell(uint32_t id, unsigned char what) { __atomic_fetch_or(&told[id], what, __ATOMIC_SEQ_CST); }

static void is_born(uint32_t id, uint64_t body, uint8_t stage) {
  bodies[id] = body;
  stages[id] = stage;
  tell(id, BORN);
}

/* The commit of the unit that holds this element, with up to two outputs. */
static void commit(covetrivet_caller *me, unsigned *state, uint32_t held, int *busy, uint64_t word) {
  covetrivet_draft drafts[2] = { { { word, 1, 0, 0 }, COVETRIVET_REPLIES }, { { word, 2, 0, 0 }, 0 } };
  covetrivet_born born;
  size_t count = pick(state, 5) / 2, k;
  uint32_t code;
  drafts[1].stage = (uint8_t)(1 + pick(state, 3));
  code = covetrivet_commit(me, drafts, count, &born);
  SO((code == COVETRIVET_NO_OPEN) == !*busy);
  SO(code == COVETRIVET_OK || code == COVETRIVET_LOST || code == COVETRIVET_FULL || code == COVETRIVET_FULL_LOST
     || code == COVETRIVET_NO_OPEN);
  *busy = 0;
  if (code != COVETRIVET_OK) return;
  SO(born.count == count);
  tell(held, CONSUMED);
  for (k = 0; k < count; k++) is_born(born.first + (uint32_t)k, word, drafts[k].stage);
}

static void *run(void *at) {
  const int number = (int)(intptr_t)at;
  covetrivet_caller *me = &callers[number];
  unsigned state = seed * 7919u + (unsigned)number;
  uint32_t held = held_of[number], id, other, killed;
  int busy = busy_of[number], k;
  for (k = 0; k < CALLS; k++) {
    const uint64_t word = (uint64_t)(number * CALLS + k), body[4] = { word, 0, 0, 0 };
    const uint8_t stage = (uint8_t)(1 + pick(&state, 3));
    covetrivet_work work;
    covetrivet_element element;
    covetrivet_released released;
    covetrivet_look look;
    uint8_t byte;
    uint32_t code;
    other = pick(&state, IDS);
    switch (pick(&state, 12)) {
    case 0:
      if (covetrivet_submit(me, stage, body, &id) == COVETRIVET_OK) is_born(id, word, stage);
      break;
    case 1:
    case 2:
    case 3:
      code = k % 2 ? covetrivet_claim(me, stage, &work) : covetrivet_claim_next(me, stage, &work);
      SO((code == COVETRIVET_BUSY) == busy);
      if (code == COVETRIVET_OK) busy = 1, held = work.element.id;
      break;
    case 4:
      code = covetrivet_claim_id(me, other, &work);
      SO((code == COVETRIVET_BUSY) == busy);
      if (code != COVETRIVET_OK) break;
      SO(work.element.id == other);
      busy = 1, held = other;
      break;
    case 5:
    case 6:
    case 7: commit(me, &state, held, &busy, word); break;
    case 8:
      SO((covetrivet_abort(me) == COVETRIVET_NO_OPEN) == !busy);
      busy = 0;
      break;
    case 9:
      if (pick(&state, 4) == 0 && covetrivet_kill(me, other, &byte) == COVETRIVET_OK) tell(other, KILLED);
      if (pick(&state, 8) == 0) covetrivet_release(me, other, &released);
      break;
    case 10:
      if (covetrivet_collect_next(me, other, &element) == COVETRIVET_OK) tell(element.id, KILLED);
      break;
    case 11:
      if (pick(&state, 2) && covetrivet_submit(me, stage, body, &id) == COVETRIVET_OK) is_born(id, word, stage);
      if (covetrivet_next_error(me, 0, &id) == COVETRIVET_OK) covetrivet_requeue(me, id, &byte);
      covetrivet_read(me, other, &look);
      covetrivet_family(me, other, 0, &look);
      covetrivet_rounds(me, other, &byte);
      /* a cancel isn't told which elements it kills: of a request that isn't there it kills none */
      SO(covetrivet_cancel(me, UINT32_MAX, &killed) == (busy ? COVETRIVET_BUSY : COVETRIVET_NOT_THERE));
      break;
    }
  }
  busy_of[number] = busy, held_of[number] = held;
  return NULL;
}

/* Each element is as the threads were told. What is alive is written, and how many of each kind there are. */
static size_t read_all(covetrivet_look *alive, covetrivet_counts *by_stage) {
  size_t count = 0;
  uint32_t id;
  memset(by_stage, 0, 16 * sizeof *by_stage);
  for (id = 0; id < IDS; id++) {
    covetrivet_look look;
    covetrivet_counts *counts;
    const uint32_t code = covetrivet_read(&callers[id % THREADS], id, &look);
    ANSWERS(told[id] & BORN ? COVETRIVET_OK : COVETRIVET_NOT_THERE, code);
    if (code != COVETRIVET_OK) continue;
    SO(look.element.id == id && look.element.body[0] == bodies[id] && look.element.stage == stages[id]);
    SO((look.status.kind == COVETRIVET_CONSUMED) == !!(told[id] & CONSUMED));
    SO((look.status.kind == COVETRIVET_KILLED) == !!(told[id] & KILLED));
    counts = &by_stage[look.element.stage];
    if (look.status.kind == COVETRIVET_WAITING) counts->waiting++;
    if (look.status.kind == COVETRIVET_HELD) counts->held++;
    if (look.status.kind == COVETRIVET_CONSUMED) counts->consumed++;
    if (look.status.kind == COVETRIVET_PARKED) counts->parked++;
    if (look.status.kind == COVETRIVET_KILLED) counts->killed++;
    if (look.status.kind != COVETRIVET_CONSUMED && look.status.kind != COVETRIVET_KILLED) alive[count++] = look;
    if (look.status.kind == COVETRIVET_HELD) {
      const int holder = look.status.unit / limits.units;
      SO(busy_of[holder] && held_of[holder] == id);
    }
  }
  return count;
}

static void same_counts(const covetrivet_counts *wanted, const covetrivet_counts *found) {
  SO(wanted->waiting == found->waiting && wanted->held == found->held && wanted->consumed == found->consumed);
  SO(wanted->parked == found->parked && wanted->killed == found->killed);
}

/* With all callers at home the account is that of the elements that were read. */
static void account(covetrivet_manager *manager, const covetrivet_counts *by_stage) {
  covetrivet_counts total = { 0, 0, 0, 0, 0 }, found;
  uint8_t stage;
  for (stage = 1; stage <= 15; stage++) {
    ANSWERS(COVETRIVET_OK, covetrivet_account(manager, stage, &found));
    same_counts(&by_stage[stage], &found);
    total.waiting += found.waiting, total.held += found.held, total.consumed += found.consumed;
    total.parked += found.parked, total.killed += found.killed;
  }
  ANSWERS(COVETRIVET_OK, covetrivet_account(manager, 0, &found));
  same_counts(&total, &found);
}

/* What is alive goes on in the next manager: each element once, with its stage, body and status, and in the same hand.
 * Whether it had the rows. */
static int roll(covetrivet_manager *manager, const covetrivet_look *alive, size_t count) {
  static covetrivet_moved moved[IDS];
  static unsigned char was[IDS];
  covetrivet_look look;
  size_t found, k;
  uint32_t id;
  uint8_t is_open;
  const uint32_t code = covetrivet_succeed(manager, NULL, moved, IDS, &found);
  if (code == COVETRIVET_FULL) return 0;
  ANSWERS(COVETRIVET_OK, code);
  SO(found == count);
  ANSWERS(COVETRIVET_NONE, covetrivet_moved_at(manager, found, moved + IDS - 1));
  for (k = 0; k < THREADS; k++) {
    ANSWERS(COVETRIVET_OK, covetrivet_open_number(manager, (uint16_t)k, &callers[k]));
    ANSWERS(COVETRIVET_OK, covetrivet_has_open(&callers[k], &is_open));
    /* (a unit that was lost isn't open any more) */
    SO(is_open <= busy_of[k]);
    busy_of[k] = 0;
  }
  memset(told, 0, sizeof told);
  memset(was, 0, sizeof was);
  for (k = 0; k < count; k++) {
    SO(moved[k].old_id == alive[k].element.id && moved[k].old_root == alive[k].element.root);
    SO(k == 0 || moved[k].new_id > moved[k - 1].new_id);
    ANSWERS(COVETRIVET_OK, covetrivet_read(&callers[0], moved[k].new_id, &look));
    SO(look.element.id == moved[k].new_id && look.element.root == moved[k].new_root);
    SO(!memcmp(look.element.body, alive[k].element.body, sizeof look.element.body));
    SO(look.element.stage == alive[k].element.stage && look.status.kind == alive[k].status.kind);
    SO(look.status.attempts == alive[k].status.attempts);
    SO((moved[k].holder == COVETRIVET_NOBODY) == (look.status.kind != COVETRIVET_HELD));
    if (look.status.kind == COVETRIVET_HELD) {
      const uint32_t holder = moved[k].holder;
      SO(holder == (uint32_t)(alive[k].status.unit / limits.units) && holder == (uint32_t)(look.status.unit / limits.units));
      ANSWERS(COVETRIVET_OK, covetrivet_has_open(&callers[holder], &is_open));
      SO(is_open == 1);
      busy_of[holder] = 1, held_of[holder] = look.element.id, in_hand++;
    }
    was[look.element.id] = 1;
  }
  /* what else was born there is consumed */
  for (id = 0; id < IDS; id++) {
    if (covetrivet_read(&callers[0], id, &look) != COVETRIVET_OK) continue;
    SO(was[id] || look.status.kind == COVETRIVET_CONSUMED);
    is_born(id, look.element.body[0], look.element.stage);
    if (!was[id]) tell(id, CONSUMED);
  }
  rolled += (long)count;
  rollovers++;
  return 1;
}

static void fresh(covetrivet_manager *manager) {
  int k;
  covetrivet_give_up(manager);
  memset(told, 0, sizeof told);
  memset(busy_of, 0, sizeof busy_of);
  ANSWERS(COVETRIVET_OK, covetrivet_make(&limits, manager));
  for (k = 0; k < THREADS; k++) ANSWERS(COVETRIVET_OK, covetrivet_open(manager, &callers[k]));
}

int main(int argc, char **argv) {
  const int rounds = argc > 1 ? atoi(argv[1]) : 100;
  const unsigned first = argc > 2 ? (unsigned)atoi(argv[2]) : 1;
  static covetrivet_look alive[IDS];
  covetrivet_counts by_stage[16], depths[16];
  covetrivet_manager manager = COVETRIVET_CLOSED;
  int round, k;
  fresh(&manager);
  for (round = 0; round < rounds; round++) {
    pthread_t threads[THREADS];
    size_t count;
    long before = 0, after = 0;
    seed = first * 1000003u + (unsigned)round;
    for (k = 0; k < IDS; k++) before += told[k] & BORN;
    for (k = 0; k < THREADS; k++) SO(!pthread_create(&threads[k], NULL, run, (void *)(intptr_t)k));
    for (k = 0; k < THREADS; k++) SO(!pthread_join(threads[k], NULL));
    for (k = 0; k < IDS; k++) after += told[k] & BORN;
    made += after - before;
    count = read_all(alive, by_stage);
    ANSWERS(COVETRIVET_OK, covetrivet_depths(&callers[0], IDS, depths));
    for (k = 1; k <= COVETRIVET_REPLIES; k++) same_counts(&by_stage[k], &depths[k]);
    for (k = 0; k < THREADS; k++)
      ANSWERS(COVETRIVET_OK, covetrivet_hand_back(&manager, &callers[(k + round) % THREADS]));
    account(&manager, by_stage);
    if (count > MANY || !roll(&manager, alive, count)) fresh(&manager);
  }
  for (k = 0; k < THREADS; k++) ANSWERS(COVETRIVET_OK, covetrivet_close(&manager, &callers[k]));
  covetrivet_give_up(&manager);
  SO((rollovers > 0 && in_hand > 0) || rounds < 10);
  printf("stress: %d managers, %ld elements made, %ld carried over, %ld of them in hand, by %ld rollovers: all as was told\n",
         rounds, made, rolled, in_hand, rollovers);
  return 0;
}
