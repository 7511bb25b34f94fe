/* waiting.c: who waits is woken, and no bell is missed. With a word, times a round trip. */
#include "check.h"
#include <covetrivet_wait.h>
#include <pthread.h>

enum { WORKERS = 3, ORDERS = 240, SECOND = 1000000000 };

static covetrivet_bells bells = COVETRIVET_BELLS;
static covetrivet_manager manager;
static covetrivet_limits limits = { WORKERS + 1, 256, 1024, 0, 3 };
static covetrivet_caller workers[WORKERS];
static int closing;

/* A claim that waits for an element or for the end. */
static uint32_t claim_or_end(covetrivet_caller *me, uint8_t stage, covetrivet_work *it) {
  uint32_t heard, code = covetrivet_claim_next(me, stage, it);
  if (code != COVETRIVET_IDLE) return code;
  covetrivet_listen(&bells, stage);
  heard = covetrivet_heard(&bells, stage);
  code = covetrivet_claim_next(me, stage, it);
  if (code == COVETRIVET_IDLE && !__atomic_load_n(&closing, __ATOMIC_SEQ_CST))
    covetrivet_wait(&bells, stage, heard, UINT64_MAX);
  covetrivet_leave_off(&bells, stage);
  return code;
}

/* A worker that hands each element on to the next stage, and in the end to its client. */
static void *work(void *at) {
  const uint8_t stage = (uint8_t)(intptr_t)at;
  covetrivet_caller *me = &workers[stage - 1];
  covetrivet_work it;
  covetrivet_born born;
  covetrivet_draft draft = { { 0, 0, 0, 0 }, 0 };
  while (!__atomic_load_n(&closing, __ATOMIC_SEQ_CST)) {
    const uint32_t code = claim_or_end(me, stage, &it);
    if (code == COVETRIVET_IDLE) continue;
    ANSWERS(COVETRIVET_OK, code);
    /* (each tenth is given up once, and waited for again) */
    if (it.element.body[0] % 10 == 0 && it.attempt == 1) {
      ANSWERS(COVETRIVET_OK, covetrivet_abort(me));
      continue;
    }
    draft.body[0] = it.element.body[0];
    draft.stage = stage == WORKERS ? COVETRIVET_REPLIES : (uint8_t)(stage + 1);
    ANSWERS(COVETRIVET_OK, covetrivet_commit(me, &draft, 1, &born));
  }
  return at;
}

static uint64_t round_trips(covetrivet_caller *client) {
  const uint64_t begun = covetrivet_soon(0);
  uint64_t n;
  for (n = 1; n <= ORDERS; n++) {
    const uint64_t body[4] = { n, 0, 0, 0 };
    covetrivet_element reply;
    uint32_t root, code;
    ANSWERS(COVETRIVET_OK, covetrivet_submit(client, 1, body, &root));
    do code = covetrivet_collect_by(client, root, covetrivet_soon(10ull * SECOND), &reply, &bells);
    while (code == COVETRIVET_NONE && covetrivet_soon(0) - begun < 60ull * SECOND);
    ANSWERS(COVETRIVET_OK, code);
    SO(reply.body[0] == n);
  }
  return covetrivet_soon(0) - begun;
}

static void deadlines(covetrivet_caller *client) {
  const uint64_t begun = covetrivet_soon(0);
  uint64_t value;
  covetrivet_work it;
  uint32_t id;
  const uint64_t body[4] = { 0, 0, 0, 0 };
  const int descriptor = covetrivet_descriptor(&bells, 9);
  SO(descriptor >= 0 && covetrivet_descriptor(&bells, 9) == descriptor);
  ANSWERS(COVETRIVET_IDLE, covetrivet_claim_by(client, 9, covetrivet_soon(SECOND / 50), &it, &bells));
  SO(covetrivet_soon(0) - begun >= SECOND / 50);
  ANSWERS(COVETRIVET_BAD_STAGE, covetrivet_claim_by(client, 15, UINT64_MAX, &it, &bells));
  SO(eventfd_read(descriptor, &value) == -1);
  ANSWERS(COVETRIVET_OK, covetrivet_submit(client, 9, body, &id));
  SO(eventfd_read(descriptor, &value) == 0 && value == 1);
  ANSWERS(COVETRIVET_OK, covetrivet_claim_by(client, 9, UINT64_MAX, &it, &bells));
  ANSWERS(COVETRIVET_OK, covetrivet_abort(client));
  SO(eventfd_read(descriptor, &value) == 0 && value == 1);
  close(descriptor);
  bells.descriptor[9] = 0;
}

int main(int argc, char **argv) {
  pthread_t threads[WORKERS];
  covetrivet_caller client = COVETRIVET_CLOSED;
  covetrivet_counts counts;
  uint64_t took;
  int k;
  (void)argv;
  ANSWERS(COVETRIVET_OK, covetrivet_make(&limits, &manager));
  ANSWERS(COVETRIVET_OK, covetrivet_hang(&manager, &bells.bell));
  ANSWERS(COVETRIVET_OK, covetrivet_open_number(&manager, 0, &client));
  deadlines(&client);
  for (k = 0; k < WORKERS; k++) {
    ANSWERS(COVETRIVET_OK, covetrivet_open(&manager, &workers[k]));
    SO(!pthread_create(&threads[k], NULL, work, (void *)(intptr_t)(k + 1)));
  }
  took = round_trips(&client);
  __atomic_store_n(&closing, 1, __ATOMIC_SEQ_CST);
  covetrivet_ring(&bells, 0);
  for (k = 0; k < WORKERS; k++) {
    SO(!pthread_join(threads[k], NULL));
    ANSWERS(COVETRIVET_OK, covetrivet_hand_back(&manager, &workers[k]));
  }
  ANSWERS(COVETRIVET_OK, covetrivet_hand_back(&manager, &client));
  ANSWERS(COVETRIVET_OK, covetrivet_account(&manager, 0, &counts));
  SO(counts.consumed == WORKERS * ORDERS && counts.killed == ORDERS && counts.held == 0 && counts.waiting == 1);
  ANSWERS(COVETRIVET_OK, covetrivet_give_up(&manager));
  if (argc > 1) printf("a round trip over %d threads took %.1f microseconds\n", WORKERS, (double)took / 1000 / ORDERS);
  puts("waiting: each was woken");
  return 0;
}
