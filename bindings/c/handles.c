/* handles.c: what threads and copies get wrong with handles has a code too, and a caller that is lost comes home. */
#include "check.h"
#include <pthread.h>
#include <sched.h>
#include <string.h>

enum { THREADS = 6, TURNS = 4000, IDS = 2 * 256 };

static const covetrivet_limits small = { 2, 8, 8, 1, 3 };
static const uint64_t body[4] = { 1, 0, 0, 0 };

/* A handle of one kind in the place of another's, and of none. */
static void kinds(void) {
  covetrivet_manager manager = COVETRIVET_CLOSED, junk;
  covetrivet_caller caller = COVETRIVET_CLOSED;
  covetrivet_work work;
  covetrivet_caller *as_caller = (covetrivet_caller *)(void *)&manager;
  covetrivet_manager *as_manager = (covetrivet_manager *)(void *)&caller;
  void *const was = (memset(&junk, 0x5a, sizeof junk), junk.at);
  uint32_t id;

  ANSWERS(COVETRIVET_OK, covetrivet_make(&small, &manager));
  ANSWERS(COVETRIVET_OK, covetrivet_open(&manager, &caller));
  ANSWERS(COVETRIVET_WRONG_HANDLE, covetrivet_submit(as_caller, 1, body, &id));
  ANSWERS(COVETRIVET_WRONG_HANDLE, covetrivet_claim(as_caller, 1, &work));
  ANSWERS(COVETRIVET_WRONG_HANDLE, covetrivet_meet(&caller, as_caller));
  ANSWERS(COVETRIVET_WRONG_HANDLE, covetrivet_gather(as_manager));
  ANSWERS(COVETRIVET_WRONG_HANDLE, covetrivet_give_up(as_manager));
  ANSWERS(COVETRIVET_WRONG_HANDLE, covetrivet_open(&manager, as_caller));
  ANSWERS(COVETRIVET_WRONG_HANDLE, covetrivet_hand_back(as_manager, &caller));
  ANSWERS(COVETRIVET_WRONG_HANDLE, covetrivet_make(&small, as_manager));
  ANSWERS(COVETRIVET_WRONG_HANDLE, covetrivet_make(&small, &junk));
  SO(junk.at == was);
  ANSWERS(COVETRIVET_OK, covetrivet_submit(&caller, 1, body, &id));
  ANSWERS(COVETRIVET_OK, covetrivet_hand_back(&manager, &caller));
  ANSWERS(COVETRIVET_OK, covetrivet_give_up(&manager));
}

/* A caller of another manager, and one that should meet itself. */
static void others(void) {
  covetrivet_manager one = COVETRIVET_CLOSED, two = COVETRIVET_CLOSED, gone = COVETRIVET_CLOSED;
  covetrivet_caller a = COVETRIVET_CLOSED, b = COVETRIVET_CLOSED, c = COVETRIVET_CLOSED;
  covetrivet_counts counts;
  uint32_t id;

  ANSWERS(COVETRIVET_OK, covetrivet_make(&small, &one));
  ANSWERS(COVETRIVET_OK, covetrivet_make(&small, &two));
  ANSWERS(COVETRIVET_OK, covetrivet_open(&one, &a));
  ANSWERS(COVETRIVET_OK, covetrivet_open(&two, &b));
  ANSWERS(COVETRIVET_OTHER_MANAGER, covetrivet_hand_back(&one, &b));
  ANSWERS(COVETRIVET_OTHER_MANAGER, covetrivet_close(&two, &a));
  ANSWERS(COVETRIVET_OTHER_MANAGER, covetrivet_meet(&a, &b));
  ANSWERS(COVETRIVET_OTHER_MANAGER, covetrivet_meet(&b, &a));
  ANSWERS(COVETRIVET_IN_USE, covetrivet_meet(&a, &a));
  ANSWERS(COVETRIVET_OK, covetrivet_submit(&a, 1, body, &id));
  ANSWERS(COVETRIVET_OK, covetrivet_hand_back(&two, &b));
  ANSWERS(COVETRIVET_OK, covetrivet_account(&two, 0, &counts));
  /* a manager that was given up, and one that was made in its place */
  ANSWERS(COVETRIVET_OK, covetrivet_open(&two, &b));
  ANSWERS(COVETRIVET_OK, covetrivet_give_up(&two));
  ANSWERS(COVETRIVET_OK, covetrivet_make(&small, &two));
  ANSWERS(COVETRIVET_OTHER_MANAGER, covetrivet_hand_back(&two, &b));
  ANSWERS(COVETRIVET_OK, covetrivet_submit(&b, 1, body, &id));
  ANSWERS(COVETRIVET_OK, covetrivet_close(&gone, &b));
  ANSWERS(COVETRIVET_OK, covetrivet_close(&one, &a));
  ANSWERS(COVETRIVET_OK, covetrivet_close(&one, &c));
  ANSWERS(COVETRIVET_OK, covetrivet_account(&one, 0, &counts));
  SO(counts.waiting == 1);
  ANSWERS(COVETRIVET_OK, covetrivet_give_up(&one));
  ANSWERS(COVETRIVET_OK, covetrivet_give_up(&two));
}

/* A copy of a handle, and one that moved. */
static void copies(void) {
  covetrivet_manager manager = COVETRIVET_CLOSED;
  covetrivet_caller first = COVETRIVET_CLOSED, copy, second = COVETRIVET_CLOSED;
  covetrivet_counts counts;
  uint32_t id;

  ANSWERS(COVETRIVET_OK, covetrivet_make(&small, &manager));
  ANSWERS(COVETRIVET_OK, covetrivet_open(&manager, &first));
  copy = first;
#if COVETRIVET_CHECKED
  ANSWERS(COVETRIVET_COPIED_HANDLE, covetrivet_submit(&copy, 1, body, &id));
#endif
  ANSWERS(COVETRIVET_OK, covetrivet_hand_back(&manager, &first));
  ANSWERS(COVETRIVET_CLOSED_HANDLE, covetrivet_hand_back(&manager, &copy));
  ANSWERS(COVETRIVET_OK, covetrivet_open(&manager, &first));
  ANSWERS(COVETRIVET_CLOSED_HANDLE, covetrivet_hand_back(&manager, &copy));
  ANSWERS(COVETRIVET_CLOSED_HANDLE, covetrivet_close(&manager, &copy));
  covetrivet_move(&first, &second);
  ANSWERS(COVETRIVET_CLOSED_HANDLE, covetrivet_submit(&first, 1, body, &id));
  ANSWERS(COVETRIVET_OK, covetrivet_submit(&second, 1, body, &id));
  ANSWERS(COVETRIVET_OK, covetrivet_close(&manager, &second));
  ANSWERS(COVETRIVET_OK, covetrivet_account(&manager, 0, &counts));
  SO(counts.waiting == 1);
  ANSWERS(COVETRIVET_OK, covetrivet_give_up(&manager));
}

/* One manager's handle on many threads at once: each call does all that it should, or answers IN_USE or NO_PART. */
static covetrivet_manager shared;
static int opened;

static void *open_and_hand_back(void *at) {
  covetrivet_caller me = COVETRIVET_CLOSED;
  covetrivet_counts counts;
  uint32_t code, id;
  int k;
  for (k = 0; k < TURNS; k++) {
    code = covetrivet_open(&shared, &me);
    SO(code == COVETRIVET_OK || code == COVETRIVET_IN_USE || code == COVETRIVET_NO_PART);
    if (code != COVETRIVET_OK) continue;
    __atomic_add_fetch(&opened, 1, __ATOMIC_RELAXED);
    code = covetrivet_submit(&me, 1, body, &id);
    SO(code == COVETRIVET_OK || code == COVETRIVET_FULL);
    code = covetrivet_account(&shared, 0, &counts);
    SO(code == COVETRIVET_IN_USE || code == COVETRIVET_NOT_ALL);
    while ((code = covetrivet_hand_back(&shared, &me)) == COVETRIVET_IN_USE) sched_yield();
    ANSWERS(COVETRIVET_OK, code);
  }
  return at;
}

/* One caller on many threads: no id is told twice. */
#if COVETRIVET_CHECKED
static covetrivet_caller one;
static unsigned char told[IDS];
static int made;

static void *submit(void *at) {
  uint32_t code, id;
  do {
    code = covetrivet_submit(&one, 1, body, &id);
    SO(code == COVETRIVET_OK || code == COVETRIVET_IN_USE || code == COVETRIVET_FULL);
    if (code != COVETRIVET_OK) continue;
    SO(id < IDS && __atomic_add_fetch(&told[id], 1, __ATOMIC_RELAXED) == 1);
    __atomic_add_fetch(&made, 1, __ATOMIC_RELAXED);
  } while (code != COVETRIVET_FULL);
  return at;
}
#endif

static void run(void *(*what)(void *)) {
  pthread_t threads[THREADS];
  int k;
  for (k = 0; k < THREADS; k++) SO(!pthread_create(&threads[k], NULL, what, NULL));
  for (k = 0; k < THREADS; k++) SO(!pthread_join(threads[k], NULL));
}

static void threads(void) {
  const covetrivet_limits limits = { 4, 256, 1024, 0, 3 }, of_one = { 1, 256, 8, 16, 3 };
  covetrivet_counts counts;
  ANSWERS(COVETRIVET_OK, covetrivet_make(&limits, &shared));
  run(open_and_hand_back);
  ANSWERS(COVETRIVET_OK, covetrivet_account(&shared, 0, &counts));
  SO(opened > 0 && counts.waiting > 0);
  ANSWERS(COVETRIVET_OK, covetrivet_give_up(&shared));
#if COVETRIVET_CHECKED
  ANSWERS(COVETRIVET_OK, covetrivet_make(&of_one, &shared));
  ANSWERS(COVETRIVET_OK, covetrivet_open(&shared, &one));
  run(submit);
  ANSWERS(COVETRIVET_OK, covetrivet_hand_back(&shared, &one));
  ANSWERS(COVETRIVET_OK, covetrivet_account(&shared, 0, &counts));
  SO(made == 256 + 16 * 8 && counts.waiting == (uint32_t)made);
  ANSWERS(COVETRIVET_OK, covetrivet_give_up(&shared));
#else
  (void)of_one;
#endif
}

/* A thread that is cancelled with a caller on its stack: the manager goes on, and its account is right. */
static int is_working;

static void *work_and_die(void *at) {
  covetrivet_caller me = COVETRIVET_CLOSED;
  covetrivet_work work;
  uint32_t id;
  ANSWERS(COVETRIVET_OK, covetrivet_open_number(&shared, 1, &me));
  ANSWERS(COVETRIVET_OK, covetrivet_submit(&me, 1, body, &id));
  ANSWERS(COVETRIVET_OK, covetrivet_submit(&me, 2, body, &id));
  ANSWERS(COVETRIVET_OK, covetrivet_claim(&me, 2, &work));
  __atomic_store_n(&is_working, 1, __ATOMIC_RELEASE);
  for (;;) {
    pthread_testcancel();
    sched_yield();
  }
  return at;
}

static void lost(void) {
  covetrivet_caller heir = COVETRIVET_CLOSED, other = COVETRIVET_CLOSED;
  covetrivet_counts counts;
  covetrivet_born born;
  pthread_t worker;
  size_t count;
  uint16_t number;
  uint8_t is_open;

  ANSWERS(COVETRIVET_OK, covetrivet_make(&small, &shared));
  SO(!pthread_create(&worker, NULL, work_and_die, NULL));
  while (!__atomic_load_n(&is_working, __ATOMIC_ACQUIRE)) sched_yield();
  SO(!pthread_cancel(worker) && !pthread_join(worker, NULL));
  ANSWERS(COVETRIVET_NOT_ALL, covetrivet_account(&shared, 0, &counts));
  ANSWERS(COVETRIVET_NO_PART, covetrivet_open_number(&shared, 1, &heir));
  ANSWERS(COVETRIVET_NO_PART, covetrivet_adopt(&shared, 0, &heir));
  ANSWERS(COVETRIVET_NO_PART, covetrivet_adopt(&shared, UINT16_MAX, &heir));
  ANSWERS(COVETRIVET_OK, covetrivet_adopt(&shared, 1, &heir));
  ANSWERS(COVETRIVET_OPEN_HANDLE, covetrivet_adopt(&shared, 1, &heir));
  ANSWERS(COVETRIVET_OK, covetrivet_number(&heir, &number));
  ANSWERS(COVETRIVET_OK, covetrivet_has_open(&heir, &is_open));
  SO(number == 1 && is_open == 1);
  ANSWERS(COVETRIVET_OK, covetrivet_hand_back(&shared, &heir));
  ANSWERS(COVETRIVET_NO_PART, covetrivet_adopt(&shared, 1, &heir));
  ANSWERS(COVETRIVET_OK, covetrivet_account(&shared, 0, &counts));
  SO(counts.waiting == 1 && counts.held == 1);
  ANSWERS(COVETRIVET_OK, covetrivet_roll_over(&shared, &small, &count));
  SO(count == 2);
  ANSWERS(COVETRIVET_OK, covetrivet_open_number(&shared, 1, &heir));
  ANSWERS(COVETRIVET_OK, covetrivet_open(&shared, &other));
  ANSWERS(COVETRIVET_OK, covetrivet_commit(&heir, NULL, 0, &born));
  ANSWERS(COVETRIVET_OK, covetrivet_close(&shared, &other));
  ANSWERS(COVETRIVET_OK, covetrivet_close(&shared, &heir));
  ANSWERS(COVETRIVET_OK, covetrivet_account(&shared, 0, &counts));
  SO(counts.waiting == 1 && counts.held == 0 && counts.consumed == 1);
  ANSWERS(COVETRIVET_OK, covetrivet_give_up(&shared));
  ANSWERS(COVETRIVET_CLOSED_HANDLE, covetrivet_adopt(&shared, 1, &heir));
}

int main(void) {
  kinds();
  others();
  copies();
  threads();
  lost();
  SO(!strcmp(covetrivet_name(COVETRIVET_COPIED_HANDLE), "COPIED_HANDLE") && !strcmp(covetrivet_name(31), "?"));
  puts("handles: each has its code");
  return 0;
}
