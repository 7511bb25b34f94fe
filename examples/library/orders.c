/* orders.c: an order system on four threads. A client submits 200 orders to stage 1, where they are priced. Stage 2
 * takes the money, and declines what costs too much: after three attempts such an order is parked. Stage 3 ships and
 * replies. The client collects the replies and kills what was parked, and in the end everything is counted.
 *
 *   cc orders.c $(pkg-config --cflags --libs covetrivet) -pthread -o orders */
#include <covetrivet.h>
#include <pthread.h>
#include <sched.h>
#include <stdatomic.h>
#include <stdio.h>
#include <stdlib.h>
#include <string.h>

enum { ORDERS = 200, MOST = 70 };
enum { NUMBER, QUANTITY, PRICE, SHIPPED }; /* the words of a body */

static atomic_int closing;

static void must(const char *what, uint32_t code) {
  if (code == COVETRIVET_OK) return;
  fprintf(stderr, "%s: code %u\n", what, (unsigned)code);
  exit(1);
}

struct server {
  covetrivet_caller caller;
  uint8_t stage;
};

static void *serve(void *at) {
  struct server *me = (struct server *)at;
  while (!atomic_load(&closing)) {
    covetrivet_work work;
    covetrivet_draft draft;
    covetrivet_born born;
    uint32_t code = covetrivet_claim_next(&me->caller, me->stage, &work);
    if (code == COVETRIVET_IDLE) {
      sched_yield();
      continue;
    }
    must("claim", code);
    memcpy(draft.body, work.element.body, sizeof draft.body);
    draft.stage = me->stage == 3 ? COVETRIVET_REPLIES : (uint8_t)(me->stage + 1);
    if (me->stage == 1) draft.body[PRICE] = draft.body[QUANTITY] * (10 + draft.body[NUMBER] % 5);
    if (me->stage == 2 && draft.body[PRICE] > MOST) {
      must("abort", covetrivet_abort(&me->caller));
      continue;
    }
    if (me->stage == 3) draft.body[SHIPPED] = 1;
    must("commit", covetrivet_commit(&me->caller, &draft, 1, &born));
  }
  return NULL;
}

/* Kills an order that was parked, if there is one. How many that were. */
static int clear_parked(covetrivet_caller *client) {
  uint32_t id;
  uint8_t aborted;
  if (covetrivet_next_error(client, 0, &id) != COVETRIVET_OK) return 0;
  must("kill", covetrivet_kill(client, id, &aborted));
  return 1;
}

static void submit_and_collect(covetrivet_caller *client, int *shipped, int *declined) {
  static uint32_t roots[ORDERS];
  static char replied[ORDERS];
  uint64_t n;
  for (n = 0; n < ORDERS; n++) {
    const uint64_t body[4] = { n, 1 + n % 7, 0, 0 };
    must("submit", covetrivet_submit(client, 1, body, &roots[n]));
  }
  while (*shipped + *declined < ORDERS) {
    for (n = 0; n < ORDERS; n++) {
      covetrivet_element reply;
      if (replied[n] || covetrivet_collect_next(client, roots[n], &reply) != COVETRIVET_OK) continue;
      if (reply.body[NUMBER] != n || reply.body[SHIPPED] != 1) exit(2);
      replied[n] = 1;
      ++*shipped;
    }
    *declined += clear_parked(client);
    sched_yield();
  }
}

int main(void) {
  const covetrivet_limits limits = { .parts = 4, .rows = 256, .units = 1024, .spare = 0, .attempts = 3 };
  covetrivet_manager manager = COVETRIVET_CLOSED;
  covetrivet_caller client = COVETRIVET_CLOSED;
  struct server servers[3];
  pthread_t threads[3];
  covetrivet_counts counts;
  int shipped = 0, declined = 0, k;

  must("make", covetrivet_make(&limits, &manager));
  must("open", covetrivet_open(&manager, &client));
  memset(servers, 0, sizeof servers);
  for (k = 0; k < 3; k++) {
    servers[k].stage = (uint8_t)(k + 1);
    must("open", covetrivet_open(&manager, &servers[k].caller));
    if (pthread_create(&threads[k], NULL, serve, &servers[k])) return 3;
  }
  submit_and_collect(&client, &shipped, &declined);
  atomic_store(&closing, 1);
  for (k = 0; k < 3; k++) {
    pthread_join(threads[k], NULL);
    must("hand back", covetrivet_hand_back(&manager, &servers[k].caller));
  }
  must("hand back", covetrivet_hand_back(&manager, &client));
  must("account", covetrivet_account(&manager, 0, &counts));
  printf("%d orders: %d shipped, %d declined\n", ORDERS, shipped, declined);
  printf("waiting %u, held %u, consumed %u, parked %u, killed %u\n", (unsigned)counts.waiting, (unsigned)counts.held,
         (unsigned)counts.consumed, (unsigned)counts.parked, (unsigned)counts.killed);
  covetrivet_give_up(&manager);
  return 0;
}
