/* misuse.c: what a caller in C can get wrong has a code, and changes nothing. */
#include "check.h"
#include <string.h>

static void handles(void) {
  covetrivet_limits limits = { 2, 4, 8, 1, 3 }, found;
  covetrivet_manager manager = COVETRIVET_CLOSED, other = COVETRIVET_CLOSED;
  covetrivet_caller a = COVETRIVET_CLOSED, b = COVETRIVET_CLOSED, c = COVETRIVET_CLOSED;
  covetrivet_counts counts;
  covetrivet_moved moved;
  uint32_t number;
  size_t count;
  uint16_t small;

  ANSWERS(COVETRIVET_CLOSED_HANDLE, covetrivet_open(&manager, &a));
  ANSWERS(COVETRIVET_CLOSED_HANDLE, covetrivet_open_number(&manager, 0, &a));
  ANSWERS(COVETRIVET_CLOSED_HANDLE, covetrivet_capacity(&manager, &number));
  ANSWERS(COVETRIVET_CLOSED_HANDLE, covetrivet_get_limits(&manager, &found));
  ANSWERS(COVETRIVET_CLOSED_HANDLE, covetrivet_account(&manager, 0, &counts));
  ANSWERS(COVETRIVET_CLOSED_HANDLE, covetrivet_gather(&manager));
  ANSWERS(COVETRIVET_CLOSED_HANDLE, covetrivet_roll_over(&manager, &limits, &count));
  ANSWERS(COVETRIVET_CLOSED_HANDLE, covetrivet_moved_at(&manager, 0, &moved));
  ANSWERS(COVETRIVET_CLOSED_HANDLE, covetrivet_hand_back(&manager, &a));
  ANSWERS(COVETRIVET_OK, covetrivet_make(&limits, &manager));
  ANSWERS(COVETRIVET_OPEN_HANDLE, covetrivet_make(&limits, &manager));
  ANSWERS(COVETRIVET_CLOSED_HANDLE, covetrivet_hand_back(&manager, &a));
  ANSWERS(COVETRIVET_OK, covetrivet_get_limits(&manager, &found));
  SO(!memcmp(&found.parts, &limits.parts, 4 * sizeof(uint16_t)) && found.attempts == 3);
  ANSWERS(COVETRIVET_OK, covetrivet_capacity(&manager, &number));
  SO(number == 2 * 4 + 8);
  ANSWERS(COVETRIVET_OK, covetrivet_open(&manager, &a));
  ANSWERS(COVETRIVET_OPEN_HANDLE, covetrivet_open(&manager, &a));
  ANSWERS(COVETRIVET_OK, covetrivet_open(&manager, &b));
  ANSWERS(COVETRIVET_NO_PART, covetrivet_open(&manager, &c));
  ANSWERS(COVETRIVET_OK, covetrivet_number(&a, &small));
  SO(small == 0);
  ANSWERS(COVETRIVET_OK, covetrivet_number(&b, &small));
  SO(small == 1);
  ANSWERS(COVETRIVET_NOT_ALL, covetrivet_account(&manager, 0, &counts));
  ANSWERS(COVETRIVET_NOT_ALL, covetrivet_gather(&manager));
  ANSWERS(COVETRIVET_NOT_ALL, covetrivet_roll_over(&manager, &limits, &count));
  ANSWERS(COVETRIVET_NONE, covetrivet_moved_at(&manager, 0, &moved));
  ANSWERS(COVETRIVET_BAD_STAGE, covetrivet_account(&manager, 16, &counts));
  ANSWERS(COVETRIVET_OK, covetrivet_meet(&a, &b));
  ANSWERS(COVETRIVET_CLOSED_HANDLE, covetrivet_meet(&a, &c));
  ANSWERS(COVETRIVET_CLOSED_HANDLE, covetrivet_meet(&c, &a));
  ANSWERS(COVETRIVET_NO_PART, covetrivet_open_number(&manager, 1, &c));
  ANSWERS(COVETRIVET_NO_PART, covetrivet_open_number(&manager, UINT16_MAX, &c));
  ANSWERS(COVETRIVET_OPEN_HANDLE, covetrivet_open_number(&manager, 1, &b));
  SO(c.at == NULL);
  /* in any order, and lent again by number */
  ANSWERS(COVETRIVET_OK, covetrivet_hand_back(&manager, &b));
  ANSWERS(COVETRIVET_OK, covetrivet_hand_back(&manager, &a));
  ANSWERS(COVETRIVET_CLOSED_HANDLE, covetrivet_number(&a, &small));
  ANSWERS(COVETRIVET_OK, covetrivet_account(&manager, 0, &counts));
  ANSWERS(COVETRIVET_OK, covetrivet_open(&manager, &c));
  ANSWERS(COVETRIVET_OK, covetrivet_number(&c, &small));
  SO(small == 0);
  ANSWERS(COVETRIVET_OK, covetrivet_hand_back(&manager, &c));
  ANSWERS(COVETRIVET_OK, covetrivet_open_number(&manager, 1, &c));
  ANSWERS(COVETRIVET_OK, covetrivet_number(&c, &small));
  SO(small == 1);
  ANSWERS(COVETRIVET_NO_PART, covetrivet_open_number(&manager, 1, &a));
  ANSWERS(COVETRIVET_OK, covetrivet_open(&manager, &a));
  ANSWERS(COVETRIVET_OK, covetrivet_number(&a, &small));
  SO(small == 0);
  ANSWERS(COVETRIVET_OK, covetrivet_hand_back(&manager, &a));
  ANSWERS(COVETRIVET_OK, covetrivet_hand_back(&manager, &c));
  /* a closed caller is at home */
  ANSWERS(COVETRIVET_OK, covetrivet_open(&manager, &c));
  ANSWERS(COVETRIVET_OK, covetrivet_close(&manager, &c));
  ANSWERS(COVETRIVET_OK, covetrivet_close(&manager, &c));
  ANSWERS(COVETRIVET_OK, covetrivet_account(&manager, 0, &counts));
  ANSWERS(COVETRIVET_OK, covetrivet_give_up(&manager));
  ANSWERS(COVETRIVET_OK, covetrivet_give_up(&manager));
  ANSWERS(COVETRIVET_OK, covetrivet_close(&manager, &c));
  for (count = 0; count < 9; count++) {
    covetrivet_limits bad = limits;
    if (count == 0) bad.parts = 0;
    if (count == 1) bad.parts = 33;
    if (count == 2) bad.rows = 0;
    if (count == 3) bad.rows = 257;
    if (count == 4) bad.units = 0;
    if (count == 5) bad.units = 1025;
    if (count == 6) bad.spare = 257;
    if (count == 7) bad.attempts = 0;
    if (count == 8) bad.attempts = 8;
    ANSWERS(COVETRIVET_BAD_LIMITS, covetrivet_make(&bad, &other));
    SO(other.at == NULL);
  }
}

static void units(void) {
  covetrivet_limits limits = { 1, 2, 3, 0, 1 };
  covetrivet_manager manager = COVETRIVET_CLOSED;
  covetrivet_caller me = COVETRIVET_CLOSED, none = COVETRIVET_CLOSED;
  const uint64_t body[4] = { 1, 2, 3, 4 };
  covetrivet_draft drafts[5];
  covetrivet_work work;
  covetrivet_born born = { 77, 77 };
  covetrivet_element element;
  covetrivet_released released;
  covetrivet_look look;
  covetrivet_left left;
  uint32_t id;
  uint16_t low;
  uint8_t byte;
  int k;

  for (k = 0; k < 5; k++) {
    memcpy(drafts[k].body, body, sizeof body);
    drafts[k].stage = COVETRIVET_REPLIES;
  }
  ANSWERS(COVETRIVET_OK, covetrivet_make(&limits, &manager));
  ANSWERS(COVETRIVET_OK, covetrivet_open(&manager, &me));
  ANSWERS(COVETRIVET_CLOSED_HANDLE, covetrivet_submit(&none, 1, body, &id));
  ANSWERS(COVETRIVET_CLOSED_HANDLE, covetrivet_claim(&none, 1, &work));
  ANSWERS(COVETRIVET_CLOSED_HANDLE, covetrivet_commit(&none, drafts, 1, &born));
  ANSWERS(COVETRIVET_CLOSED_HANDLE, covetrivet_abort(&none));
  ANSWERS(COVETRIVET_BAD_STAGE, covetrivet_submit(&me, 0, body, &id));
  ANSWERS(COVETRIVET_BAD_STAGE, covetrivet_submit(&me, 15, body, &id));
  ANSWERS(COVETRIVET_BAD_STAGE, covetrivet_claim(&me, 0, &work));
  ANSWERS(COVETRIVET_BAD_STAGE, covetrivet_claim_next(&me, 15, &work));
  ANSWERS(COVETRIVET_IDLE, covetrivet_claim(&me, 1, &work));
  ANSWERS(COVETRIVET_IDLE, covetrivet_claim_next(&me, 14, &work));
  ANSWERS(COVETRIVET_NO_OPEN, covetrivet_abort(&me));
  ANSWERS(COVETRIVET_NO_OPEN, covetrivet_commit(&me, drafts, 1, &born));
  ANSWERS(COVETRIVET_NOT_THERE, covetrivet_read(&me, 0, &look));
  ANSWERS(COVETRIVET_NOT_THERE, covetrivet_read(&me, UINT32_MAX, &look));
  ANSWERS(COVETRIVET_NOT_THERE, covetrivet_kill(&me, 1, &byte));
  ANSWERS(COVETRIVET_NOT_THERE, covetrivet_cancel(&me, 1, &id));
  ANSWERS(COVETRIVET_NOT_THERE, covetrivet_claim_id(&me, 1, &work));
  ANSWERS(COVETRIVET_OK, covetrivet_submit(&me, 7, body, &id));
  SO(id == 0);
  ANSWERS(COVETRIVET_NOT_PARKED, covetrivet_requeue(&me, 0, &byte));
  ANSWERS(COVETRIVET_NOT_HELD, covetrivet_release(&me, 0, &released));
  ANSWERS(COVETRIVET_BAD_STAGE, covetrivet_collect(&me, 0, &element));
  ANSWERS(COVETRIVET_OK, covetrivet_claim(&me, 7, &work));
  SO(work.element.id == 0 && work.element.root == 0 && work.element.stage == 7 && work.attempt == 1);
  SO(work.element.by == COVETRIVET_BY_CLIENT && !memcmp(work.element.body, body, sizeof body) && work.unit == 0);
  ANSWERS(COVETRIVET_OK, covetrivet_has_open(&me, &byte));
  SO(byte == 1);
  ANSWERS(COVETRIVET_BUSY, covetrivet_claim(&me, 7, &work));
  ANSWERS(COVETRIVET_BUSY, covetrivet_claim_next(&me, 7, &work));
  ANSWERS(COVETRIVET_BUSY, covetrivet_claim_id(&me, 0, &work));
  ANSWERS(COVETRIVET_BUSY, covetrivet_kill(&me, 0, &byte));
  ANSWERS(COVETRIVET_BUSY, covetrivet_cancel(&me, 0, &id));
  ANSWERS(COVETRIVET_BUSY, covetrivet_release(&me, 0, &released));
  ANSWERS(COVETRIVET_BUSY, covetrivet_collect(&me, 0, &element));
  ANSWERS(COVETRIVET_BUSY, covetrivet_collect_next(&me, 0, &element));
  ANSWERS(COVETRIVET_TOO_MANY, covetrivet_commit(&me, drafts, 5, &born));
  drafts[1].stage = 0;
  ANSWERS(COVETRIVET_BAD_DRAFT, covetrivet_commit(&me, drafts, 2, &born));
  drafts[1].stage = 16;
  ANSWERS(COVETRIVET_BAD_DRAFT, covetrivet_commit(&me, drafts, 4, &born));
  SO(born.first == 77 && born.count == 77);
  /* with one attempt it is parked at once, and has three further rounds */
  ANSWERS(COVETRIVET_OK, covetrivet_abort(&me));
  ANSWERS(COVETRIVET_OK, covetrivet_next_error(&me, 0, &id));
  SO(id == 0);
  ANSWERS(COVETRIVET_NONE, covetrivet_next_error(&me, 1, &id));
  ANSWERS(COVETRIVET_OK, covetrivet_requeue(&me, 0, &byte));
  SO(byte == 1);
  ANSWERS(COVETRIVET_OK, covetrivet_rounds(&me, 0, &byte));
  SO(byte == 1);
  ANSWERS(COVETRIVET_OK, covetrivet_claim(&me, 7, &work));
  drafts[1].stage = COVETRIVET_REPLIES;
  /* one row is left, and no spare block: two outputs are too many, and the unit is over */
  ANSWERS(COVETRIVET_FULL, covetrivet_commit(&me, drafts, 2, &born));
  ANSWERS(COVETRIVET_OK, covetrivet_requeue(&me, 0, &byte));
  ANSWERS(COVETRIVET_OK, covetrivet_claim_id(&me, 0, &work));
  SO(work.unit == 2);
  ANSWERS(COVETRIVET_OK, covetrivet_commit(&me, drafts, 1, &born));
  SO(born.first == 1 && born.count == 1);
  ANSWERS(COVETRIVET_OK, covetrivet_room(&me, &left));
  SO(left.rows == 0 && left.units == 0);
  ANSWERS(COVETRIVET_NO_UNIT, covetrivet_claim(&me, 7, &work));
  ANSWERS(COVETRIVET_FULL, covetrivet_submit(&me, 7, body, &id));
  ANSWERS(COVETRIVET_WAS_CONSUMED, covetrivet_kill(&me, 0, &byte));
  ANSWERS(COVETRIVET_OK, covetrivet_reply(&me, 0, 0, &id));
  SO(id == 1);
  ANSWERS(COVETRIVET_OK, covetrivet_family(&me, 0, 1, &look));
  SO(look.element.id == 1 && look.element.by == 2 && look.status.kind == COVETRIVET_WAITING);
  ANSWERS(COVETRIVET_OK, covetrivet_collect_next(&me, 0, &element));
  SO(element.id == 1 && element.stage == COVETRIVET_REPLIES && element.by == 2 && element.root == 0);
  ANSWERS(COVETRIVET_NONE, covetrivet_collect_next(&me, 0, &element));
  ANSWERS(COVETRIVET_ALREADY_KILLED, covetrivet_collect(&me, 1, &element));
  ANSWERS(COVETRIVET_OK, covetrivet_read(&me, 0, &look));
  SO(look.status.kind == COVETRIVET_CONSUMED && look.status.unit == 2);
  ANSWERS(COVETRIVET_BAD_STAGE, covetrivet_low(&me, 255, 0, &low));
  ANSWERS(COVETRIVET_BAD_STAGE, covetrivet_low(&me, 16, 0, &low));
  ANSWERS(COVETRIVET_OK, covetrivet_low(&me, 15, 0, &low));
  covetrivet_give_up(&manager); /* the caller goes on */
  ANSWERS(COVETRIVET_OK, covetrivet_read(&me, 1, &look));
  SO(look.status.kind == COVETRIVET_KILLED);
  ANSWERS(COVETRIVET_OK, covetrivet_close(&manager, &me));
}

/* Of three callers one holds an element, one has lost its own to a kill, and one holds nothing. */
static void in_hand(void) {
  covetrivet_limits limits = { 3, 4, 8, 0, 3 }, fewer = { 1, 8, 8, 0, 3 }, wider = { 4, 8, 8, 0, 3 };
  covetrivet_manager manager = COVETRIVET_CLOSED;
  covetrivet_caller callers[3] = { COVETRIVET_CLOSED, COVETRIVET_CLOSED, COVETRIVET_CLOSED };
  const uint64_t one[4] = { 1, 0, 0, 0 }, two[4] = { 2, 0, 0, 0 };
  covetrivet_draft draft = { { 3, 0, 0, 0 }, COVETRIVET_REPLIES };
  covetrivet_work work;
  covetrivet_born born;
  covetrivet_look look;
  covetrivet_moved moved;
  covetrivet_counts counts;
  uint32_t kept, lost;
  uint8_t byte;
  size_t count;
  int k;

  ANSWERS(COVETRIVET_OK, covetrivet_make(&limits, &manager));
  for (k = 0; k < 3; k++) ANSWERS(COVETRIVET_OK, covetrivet_open(&manager, &callers[k]));
  ANSWERS(COVETRIVET_OK, covetrivet_submit(&callers[0], 1, one, &kept));
  ANSWERS(COVETRIVET_OK, covetrivet_submit(&callers[0], 2, two, &lost));
  ANSWERS(COVETRIVET_OK, covetrivet_claim(&callers[1], 1, &work));
  ANSWERS(COVETRIVET_OK, covetrivet_abort(&callers[1]));
  ANSWERS(COVETRIVET_OK, covetrivet_claim(&callers[1], 1, &work));
  SO(work.element.id == kept && work.attempt == 2);
  ANSWERS(COVETRIVET_OK, covetrivet_claim(&callers[2], 2, &work));
  ANSWERS(COVETRIVET_OK, covetrivet_kill(&callers[0], lost, &byte));
  for (k = 0; k < 3; k++) ANSWERS(COVETRIVET_OK, covetrivet_hand_back(&manager, &callers[2 - k]));
  ANSWERS(COVETRIVET_BAD_LIMITS, covetrivet_roll_over(&manager, &fewer, &count));
  ANSWERS(COVETRIVET_OK, covetrivet_roll_over(&manager, &limits, &count));
  SO(count == 1);
  ANSWERS(COVETRIVET_OK, covetrivet_moved_at(&manager, 0, &moved));
  SO(moved.old_id == kept && moved.old_root == kept && moved.new_root == moved.new_id && moved.holder == 1);
  ANSWERS(COVETRIVET_OK, covetrivet_account(&manager, 1, &counts));
  SO(counts.held == 1 && counts.waiting == 0 && counts.parked == 0);
  for (k = 0; k < 3; k++) {
    ANSWERS(COVETRIVET_OK, covetrivet_open_number(&manager, (uint16_t)(2 - k), &callers[2 - k]));
    ANSWERS(COVETRIVET_OK, covetrivet_has_open(&callers[2 - k], &byte));
    SO(byte == (2 - k == 1));
  }
  ANSWERS(COVETRIVET_OK, covetrivet_read(&callers[0], moved.new_id, &look));
  SO(look.element.body[0] == 1 && look.element.stage == 1 && look.status.kind == COVETRIVET_HELD);
  SO(look.status.attempts == 2 && look.status.unit / limits.units == 1);
  ANSWERS(COVETRIVET_NO_OPEN, covetrivet_commit(&callers[2], &draft, 1, &born));
  ANSWERS(COVETRIVET_OK, covetrivet_commit(&callers[1], &draft, 1, &born));
  ANSWERS(COVETRIVET_OK, covetrivet_reply(&callers[0], moved.new_root, 0, &kept));
  SO(kept == born.first && born.count == 1);
  for (k = 0; k < 3; k++) ANSWERS(COVETRIVET_OK, covetrivet_close(&manager, &callers[k]));
  ANSWERS(COVETRIVET_OK, covetrivet_succeed(&manager, &wider, &moved, 1, &count));
  SO(count == 1 && moved.old_id == kept && moved.holder == COVETRIVET_NOBODY);
  ANSWERS(COVETRIVET_OK, covetrivet_get_limits(&manager, &fewer));
  SO(fewer.parts == 4);
  ANSWERS(COVETRIVET_OK, covetrivet_succeed(&manager, NULL, &moved, 0, &count));
  covetrivet_give_up(&manager);
}

/* Without rows a commit that has aborted its unit is told apart from one whose unit another caller had aborted. */
static void full_or_lost(void) {
  covetrivet_limits limits = { 2, 2, 8, 0, 7 };
  covetrivet_manager manager = COVETRIVET_CLOSED;
  covetrivet_caller a = COVETRIVET_CLOSED, b = COVETRIVET_CLOSED;
  const uint64_t body[4] = { 1, 0, 0, 0 };
  covetrivet_draft drafts[3] = { { { 0, 0, 0, 0 }, 2 }, { { 0, 0, 0, 0 }, 2 }, { { 0, 0, 0, 0 }, 2 } };
  covetrivet_work work;
  covetrivet_born born = { 77, 77 };
  covetrivet_released released;
  covetrivet_look look;
  uint32_t id;
  uint8_t byte;

  ANSWERS(COVETRIVET_OK, covetrivet_make(&limits, &manager));
  ANSWERS(COVETRIVET_OK, covetrivet_open(&manager, &a));
  ANSWERS(COVETRIVET_OK, covetrivet_open(&manager, &b));
  ANSWERS(COVETRIVET_OK, covetrivet_submit(&a, 1, body, &id));
  ANSWERS(COVETRIVET_OK, covetrivet_claim(&b, 1, &work));
  ANSWERS(COVETRIVET_FULL, covetrivet_commit(&b, drafts, 3, &born));
  ANSWERS(COVETRIVET_OK, covetrivet_read(&a, id, &look));
  SO(look.status.kind == COVETRIVET_WAITING && look.status.attempts == 1);
  ANSWERS(COVETRIVET_OK, covetrivet_claim(&b, 1, &work));
  ANSWERS(COVETRIVET_OK, covetrivet_release(&a, id, &released));
  ANSWERS(COVETRIVET_OK, covetrivet_claim(&a, 1, &work));
  ANSWERS(COVETRIVET_FULL_LOST, covetrivet_commit(&b, drafts, 3, &born));
  ANSWERS(COVETRIVET_NO_OPEN, covetrivet_commit(&b, drafts, 3, &born));
  ANSWERS(COVETRIVET_OK, covetrivet_read(&b, id, &look));
  SO(look.status.kind == COVETRIVET_HELD && look.status.unit == work.unit && look.status.attempts == 3);
  ANSWERS(COVETRIVET_OK, covetrivet_abort(&a));
  ANSWERS(COVETRIVET_OK, covetrivet_claim(&b, 1, &work));
  ANSWERS(COVETRIVET_OK, covetrivet_cancel(&a, id, &id));
  ANSWERS(COVETRIVET_FULL_LOST, covetrivet_commit(&b, drafts, 3, &born));
  SO(born.first == 77 && born.count == 77);
  ANSWERS(COVETRIVET_OK, covetrivet_submit(&a, 1, body, &id));
  ANSWERS(COVETRIVET_OK, covetrivet_claim(&b, 1, &work));
  ANSWERS(COVETRIVET_OK, covetrivet_kill(&a, id, &byte));
  ANSWERS(COVETRIVET_LOST, covetrivet_commit(&b, drafts, 2, &born));
  ANSWERS(COVETRIVET_OK, covetrivet_close(&manager, &a));
  ANSWERS(COVETRIVET_OK, covetrivet_close(&manager, &b));
  covetrivet_give_up(&manager);
}

static void nulls(void) {
  covetrivet_limits limits = { 1, 1, 1, 0, 1 };
  covetrivet_manager manager = COVETRIVET_CLOSED;
  covetrivet_caller me = COVETRIVET_CLOSED;
  covetrivet_work work;
  covetrivet_born born;
  const uint64_t body[4] = { 0, 0, 0, 0 };
  uint32_t id;

  ANSWERS(COVETRIVET_NULL, covetrivet_make(NULL, &manager));
  ANSWERS(COVETRIVET_NULL, covetrivet_make(&limits, NULL));
  ANSWERS(COVETRIVET_OK, covetrivet_make(&limits, &manager));
  ANSWERS(COVETRIVET_NULL, covetrivet_open(&manager, NULL));
  ANSWERS(COVETRIVET_NULL, covetrivet_open_number(&manager, 0, NULL));
  ANSWERS(COVETRIVET_OK, covetrivet_open(&manager, &me));
  ANSWERS(COVETRIVET_NULL, covetrivet_submit(&me, 1, NULL, &id));
  ANSWERS(COVETRIVET_NULL, covetrivet_submit(&me, 1, body, NULL));
  ANSWERS(COVETRIVET_NULL, covetrivet_claim(NULL, 1, &work));
  ANSWERS(COVETRIVET_NULL, covetrivet_commit(&me, NULL, 1, &born));
  ANSWERS(COVETRIVET_NO_OPEN, covetrivet_commit(&me, NULL, 0, &born));
  ANSWERS(COVETRIVET_OK, covetrivet_submit(&me, 1, body, &id));
  ANSWERS(COVETRIVET_OK, covetrivet_claim(&me, 1, &work));
  ANSWERS(COVETRIVET_OK, covetrivet_commit(&me, NULL, 0, &born));
  SO(born.first == 0 && born.count == 0);
  ANSWERS(COVETRIVET_NULL, covetrivet_close(&manager, NULL));
  ANSWERS(COVETRIVET_NULL, covetrivet_close(NULL, &me));
  ANSWERS(COVETRIVET_OK, covetrivet_close(&manager, &me));
  ANSWERS(COVETRIVET_NULL, covetrivet_give_up(NULL));
  covetrivet_give_up(&manager);
}

int main(void) {
  handles();
  units();
  in_hand();
  full_or_lost();
  nulls();
  SO(covetrivet_version() == COVETRIVET_VERSION);
  puts("misuse: each has its code");
  return 0;
}
