/* covetrivet_tested.h: the calls of covetrivet.h, which includes this page, with tests of their pointers and
 * handles. A caller of covetrivet_submit calls covetrivet_tested_submit, and that the library.
 *
 * A handle carries a kind, and a caller's the manager that it is of. A manager's calls take its handle by an
 * exchange, so that two threads cannot be in it. So do those of a caller where COVETRIVET_CHECKED is 1: it is
 * unless NDEBUG is defined, as for assert. (It costs a call some nanoseconds, of about 20.) */
#ifndef COVETRIVET_TESTED_H
#define COVETRIVET_TESTED_H

#ifndef COVETRIVET_CHECKED
#ifdef NDEBUG
#define COVETRIVET_CHECKED 0
#else
#define COVETRIVET_CHECKED 1
#endif
#endif

/* The kinds of a handle that a call of this page has opened. (One that was opened without it has 0.) */
#define COVETRIVET_A_MANAGER 0x6d616e61u
#define COVETRIVET_A_CALLER 0x63616c6cu

/* How many managers were made and callers opened by calls of this page, in all files of a program. */
__attribute__((weak)) uint64_t covetrivet_count_of_handles;
static inline uint64_t covetrivet_next_mark(void) {
  return __atomic_add_fetch(&covetrivet_count_of_handles, 1, __ATOMIC_RELAXED);
}

static inline uint32_t covetrivet_take(uint8_t *in_use) {
  return __atomic_exchange_n(in_use, 1, __ATOMIC_ACQUIRE) ? (uint32_t)COVETRIVET_IN_USE : (uint32_t)COVETRIVET_OK;
}
static inline uint32_t covetrivet_put(uint8_t *in_use, uint32_t code) {
  __atomic_store_n(in_use, 0, __ATOMIC_RELEASE);
  return code;
}
static inline int covetrivet_is_other(const uint32_t *kind, uint32_t wanted) {
  const uint32_t found = __atomic_load_n(kind, __ATOMIC_RELAXED);
  return found && found != wanted;
}

/* Rings the bell of a caller, if its manager had one as it was opened, and the call did this. */
static inline uint32_t covetrivet_rung(const covetrivet_caller *caller, unsigned stage, uint32_t code,
    uint32_t where) {
  if (code == where && caller->bell) caller->bell->ring(caller->bell, stage);
  return code;
}

/* Begins a call of a manager, and ends it with its code. */
static inline uint32_t covetrivet_enter_manager(covetrivet_manager *manager, int are_there) {
  if (!manager || !are_there) return COVETRIVET_NULL;
  if (covetrivet_is_other(&manager->kind, COVETRIVET_A_MANAGER)) return COVETRIVET_WRONG_HANDLE;
  return covetrivet_take(&manager->in_use);
}
static inline uint32_t covetrivet_leave_manager(covetrivet_manager *manager, uint32_t code) {
  return covetrivet_put(&manager->in_use, code);
}

/* The same of a caller. */
static inline uint32_t covetrivet_enter(covetrivet_caller *caller, int are_there) {
  if (!caller || !are_there) return COVETRIVET_NULL;
  if (covetrivet_is_other(&caller->kind, COVETRIVET_A_CALLER)) return COVETRIVET_WRONG_HANDLE;
  if (!COVETRIVET_CHECKED) return COVETRIVET_OK;
  if (caller->self && caller->self != caller) return COVETRIVET_COPIED_HANDLE;
  return covetrivet_take(&caller->in_use);
}
static inline uint32_t covetrivet_leave(covetrivet_caller *caller, uint32_t code) {
  return COVETRIVET_CHECKED ? covetrivet_put(&caller->in_use, code) : code;
}

/* And of a manager's call that is about a caller, which is taken too. */
static inline uint32_t covetrivet_enter_both(covetrivet_manager *manager, covetrivet_caller *caller) {
  uint32_t code = covetrivet_enter_manager(manager, caller != NULL);
  if (code != COVETRIVET_OK) return code;
  if ((const void *)manager == (const void *)caller || covetrivet_is_other(&caller->kind, COVETRIVET_A_CALLER))
    code = COVETRIVET_WRONG_HANDLE;
  else
    code = covetrivet_take(&caller->in_use);
  return code ? covetrivet_leave_manager(manager, code) : code;
}
static inline uint32_t covetrivet_leave_both(covetrivet_manager *manager, covetrivet_caller *caller,
    uint32_t code) {
  covetrivet_put(&caller->in_use, code);
  return covetrivet_leave_manager(manager, code);
}

/* ---- managers and callers ---- */

static inline uint32_t covetrivet_tested_make(const covetrivet_limits *limits, covetrivet_manager *manager) {
  uint32_t code = covetrivet_enter_manager(manager, limits != NULL);
  if (code != COVETRIVET_OK) return code;
  code = covetrivet_make(limits, manager);
  if (code == COVETRIVET_OK) {
    __atomic_store_n(&manager->kind, COVETRIVET_A_MANAGER, __ATOMIC_RELAXED);
    manager->mark = covetrivet_next_mark();
    manager->bell = NULL;
    memset(manager->lent, 0, sizeof manager->lent);
  }
  return covetrivet_leave_manager(manager, code);
}
static inline uint32_t covetrivet_tested_give_up(covetrivet_manager *manager) {
  uint32_t code = covetrivet_enter_manager(manager, 1);
  if (code != COVETRIVET_OK) return code;
  code = covetrivet_give_up(manager);
  __atomic_store_n(&manager->kind, 0, __ATOMIC_RELAXED);
  manager->mark = 0;
  return covetrivet_leave_manager(manager, code);
}

/* Notes a caller that was opened, in its handle and in its manager's. */
static inline void covetrivet_note(covetrivet_manager *manager, covetrivet_caller *caller) {
  uint16_t number = 0;
  covetrivet_number(caller, &number);
  caller->self = caller;
  caller->of = manager->mark;
  caller->mark = covetrivet_next_mark();
  caller->number = number;
  caller->stage = 0;
  caller->bell = manager->bell;
  __atomic_store_n(&caller->kind, COVETRIVET_A_CALLER, __ATOMIC_RELAXED);
  manager->lent[number].at = caller->at;
  manager->lent[number].mark = caller->mark;
}
/* Whether a caller may come home: OTHER_MANAGER, and CLOSED_HANDLE of a copy whose caller has come home. */
static inline uint32_t covetrivet_may_come(const covetrivet_manager *manager, const covetrivet_caller *caller) {
  if (!manager->at || !caller->at || !manager->kind || !caller->kind) return COVETRIVET_OK;
  if (caller->of != manager->mark) return COVETRIVET_OTHER_MANAGER;
  return manager->lent[caller->number].mark == caller->mark ? COVETRIVET_OK : COVETRIVET_CLOSED_HANDLE;
}
/* Notes that a caller isn't open any more. */
static inline void covetrivet_forget(covetrivet_manager *manager, covetrivet_caller *caller) {
  if (caller->kind && manager->at && manager->lent[caller->number].mark == caller->mark)
    manager->lent[caller->number].at = NULL, manager->lent[caller->number].mark = 0;
  __atomic_store_n(&caller->kind, 0, __ATOMIC_RELAXED);
  caller->self = NULL;
  caller->of = caller->mark = 0;
}

static inline uint32_t covetrivet_tested_open(covetrivet_manager *manager, covetrivet_caller *caller) {
  uint32_t code = covetrivet_enter_both(manager, caller);
  if (code != COVETRIVET_OK) return code;
  code = covetrivet_open(manager, caller);
  if (code == COVETRIVET_OK) covetrivet_note(manager, caller);
  return covetrivet_leave_both(manager, caller, code);
}
static inline uint32_t covetrivet_tested_open_number(covetrivet_manager *manager, uint16_t number,
    covetrivet_caller *caller) {
  uint32_t code = covetrivet_enter_both(manager, caller);
  if (code != COVETRIVET_OK) return code;
  code = covetrivet_open_number(manager, number, caller);
  if (code == COVETRIVET_OK) covetrivet_note(manager, caller);
  return covetrivet_leave_both(manager, caller, code);
}
static inline uint32_t covetrivet_tested_hand_back(covetrivet_manager *manager, covetrivet_caller *caller) {
  uint32_t code = covetrivet_enter_both(manager, caller);
  if (code != COVETRIVET_OK) return code;
  code = covetrivet_may_come(manager, caller);
  if (code == COVETRIVET_OK) code = covetrivet_hand_back(manager, caller);
  if (code == COVETRIVET_OK) covetrivet_forget(manager, caller);
  return covetrivet_leave_both(manager, caller, code);
}
static inline uint32_t covetrivet_tested_close(covetrivet_manager *manager, covetrivet_caller *caller) {
  uint32_t code = covetrivet_enter_both(manager, caller);
  if (code != COVETRIVET_OK) return code;
  code = covetrivet_may_come(manager, caller);
  if (code == COVETRIVET_OK) code = covetrivet_close(manager, caller);
  if (code == COVETRIVET_OK) covetrivet_forget(manager, caller);
  return covetrivet_leave_both(manager, caller, code);
}

/* ---- with all callers at home ---- */

static inline uint32_t covetrivet_tested_get_limits(covetrivet_manager *manager, covetrivet_limits *limits) {
  const uint32_t code = covetrivet_enter_manager(manager, limits != NULL);
  return code ? code : covetrivet_leave_manager(manager, covetrivet_get_limits(manager, limits));
}
static inline uint32_t covetrivet_tested_capacity(covetrivet_manager *manager, uint32_t *capacity) {
  const uint32_t code = covetrivet_enter_manager(manager, capacity != NULL);
  return code ? code : covetrivet_leave_manager(manager, covetrivet_capacity(manager, capacity));
}
static inline uint32_t covetrivet_tested_account(covetrivet_manager *manager, uint8_t stage, covetrivet_counts
    *counts) {
  const uint32_t code = covetrivet_enter_manager(manager, counts != NULL);
  return code ? code : covetrivet_leave_manager(manager, covetrivet_account(manager, stage, counts));
}
static inline uint32_t covetrivet_tested_gather(covetrivet_manager *manager) {
  const uint32_t code = covetrivet_enter_manager(manager, 1);
  return code ? code : covetrivet_leave_manager(manager, covetrivet_gather(manager));
}
static inline uint32_t covetrivet_tested_roll_over(covetrivet_manager *manager, const covetrivet_limits *limits,
    size_t *count) {
  const uint32_t code = covetrivet_enter_manager(manager, limits && count);
  return code ? code : covetrivet_leave_manager(manager, covetrivet_roll_over(manager, limits, count));
}
static inline uint32_t covetrivet_tested_moved_at(covetrivet_manager *manager, size_t place, covetrivet_moved
    *moved) {
  const uint32_t code = covetrivet_enter_manager(manager, moved != NULL);
  return code ? code : covetrivet_leave_manager(manager, covetrivet_moved_at(manager, place, moved));
}

/* ---- of a caller ---- */

static inline uint32_t covetrivet_tested_submit(covetrivet_caller *caller, uint8_t stage, const uint64_t
    body[4], uint32_t *id) {
  uint32_t code = covetrivet_enter(caller, body && id);
  if (code != COVETRIVET_OK) return code;
  code = covetrivet_rung(caller, stage, covetrivet_submit(caller, stage, body, id), COVETRIVET_OK);
  return covetrivet_leave(caller, code);
}
static inline uint32_t covetrivet_tested_read(covetrivet_caller *caller, uint32_t id, covetrivet_look *look) {
  const uint32_t code = covetrivet_enter(caller, look != NULL);
  return code ? code : covetrivet_leave(caller, covetrivet_read(caller, id, look));
}
static inline uint32_t covetrivet_tested_rounds(covetrivet_caller *caller, uint32_t id, uint8_t *rounds) {
  const uint32_t code = covetrivet_enter(caller, rounds != NULL);
  return code ? code : covetrivet_leave(caller, covetrivet_rounds(caller, id, rounds));
}
static inline uint32_t covetrivet_tested_reply(covetrivet_caller *caller, uint32_t root, uint32_t from, uint32_t
    *id) {
  const uint32_t code = covetrivet_enter(caller, id != NULL);
  return code ? code : covetrivet_leave(caller, covetrivet_reply(caller, root, from, id));
}
static inline uint32_t covetrivet_tested_next_error(covetrivet_caller *caller, uint32_t from, uint32_t *id) {
  const uint32_t code = covetrivet_enter(caller, id != NULL);
  return code ? code : covetrivet_leave(caller, covetrivet_next_error(caller, from, id));
}
static inline uint32_t covetrivet_tested_family(covetrivet_caller *caller, uint32_t root, uint32_t from,
    covetrivet_look *look) {
  const uint32_t code = covetrivet_enter(caller, look != NULL);
  return code ? code : covetrivet_leave(caller, covetrivet_family(caller, root, from, look));
}
static inline uint32_t covetrivet_tested_collect(covetrivet_caller *caller, uint32_t id, covetrivet_element
    *element) {
  const uint32_t code = covetrivet_enter(caller, element != NULL);
  return code ? code : covetrivet_leave(caller, covetrivet_collect(caller, id, element));
}
static inline uint32_t covetrivet_tested_collect_next(covetrivet_caller *caller, uint32_t root,
    covetrivet_element *element) {
  const uint32_t code = covetrivet_enter(caller, element != NULL);
  return code ? code : covetrivet_leave(caller, covetrivet_collect_next(caller, root, element));
}
static inline uint32_t covetrivet_tested_requeue(covetrivet_caller *caller, uint32_t id, uint8_t *round) {
  uint32_t code = covetrivet_enter(caller, round != NULL);
  if (code != COVETRIVET_OK) return code;
  code = covetrivet_rung(caller, 0, covetrivet_requeue(caller, id, round), COVETRIVET_OK);
  return covetrivet_leave(caller, code);
}
static inline uint32_t covetrivet_tested_kill(covetrivet_caller *caller, uint32_t id, uint8_t *aborted) {
  const uint32_t code = covetrivet_enter(caller, aborted != NULL);
  return code ? code : covetrivet_leave(caller, covetrivet_kill(caller, id, aborted));
}
static inline uint32_t covetrivet_tested_cancel(covetrivet_caller *caller, uint32_t root, uint32_t *killed) {
  const uint32_t code = covetrivet_enter(caller, killed != NULL);
  return code ? code : covetrivet_leave(caller, covetrivet_cancel(caller, root, killed));
}
static inline uint32_t covetrivet_tested_release(covetrivet_caller *caller, uint32_t id, covetrivet_released
    *released) {
  uint32_t code = covetrivet_enter(caller, released != NULL);
  if (code != COVETRIVET_OK) return code;
  code = covetrivet_rung(caller, 0, covetrivet_release(caller, id, released), COVETRIVET_OK);
  return covetrivet_leave(caller, code);
}
static inline uint32_t covetrivet_tested_claim(covetrivet_caller *caller, uint8_t stage, covetrivet_work *work)
    {
  uint32_t code = covetrivet_enter(caller, work != NULL);
  if (code != COVETRIVET_OK) return code;
  code = covetrivet_claim(caller, stage, work);
  if (code == COVETRIVET_OK) caller->stage = work->element.stage;
  return covetrivet_leave(caller, code);
}
static inline uint32_t covetrivet_tested_claim_next(covetrivet_caller *caller, uint8_t stage, covetrivet_work
    *work) {
  uint32_t code = covetrivet_enter(caller, work != NULL);
  if (code != COVETRIVET_OK) return code;
  code = covetrivet_claim_next(caller, stage, work);
  if (code == COVETRIVET_OK) caller->stage = work->element.stage;
  return covetrivet_leave(caller, code);
}
static inline uint32_t covetrivet_tested_claim_id(covetrivet_caller *caller, uint32_t id, covetrivet_work *work)
    {
  uint32_t code = covetrivet_enter(caller, work != NULL);
  if (code != COVETRIVET_OK) return code;
  code = covetrivet_claim_id(caller, id, work);
  if (code == COVETRIVET_OK) caller->stage = work->element.stage;
  return covetrivet_leave(caller, code);
}
static inline uint32_t covetrivet_tested_abort(covetrivet_caller *caller) {
  uint32_t code = covetrivet_enter(caller, 1);
  if (code != COVETRIVET_OK) return code;
  code = covetrivet_rung(caller, caller->stage, covetrivet_abort(caller), COVETRIVET_OK);
  return covetrivet_leave(caller, code);
}
static inline uint32_t covetrivet_rung_by_commit(const covetrivet_caller *caller, const covetrivet_draft *drafts,
    size_t count, uint32_t code) {
  size_t place;
  if (!caller->bell) return code;
  for (place = 0; place < count; place++) covetrivet_rung(caller, drafts[place].stage, code, COVETRIVET_OK);
  return covetrivet_rung(caller, caller->stage, code, COVETRIVET_FULL);
}
static inline uint32_t covetrivet_tested_commit(covetrivet_caller *caller, const covetrivet_draft *drafts,
    size_t count, covetrivet_born *born) {
  covetrivet_draft none = { { 0, 0, 0, 0 }, 0 };
  uint32_t code = covetrivet_enter(caller, born && (drafts || !count));
  if (code != COVETRIVET_OK) return code;
  code = covetrivet_commit(caller, drafts ? drafts : &none, count, born);
  return covetrivet_leave(caller, covetrivet_rung_by_commit(caller, drafts, count, code));
}
static inline uint32_t covetrivet_tested_number(covetrivet_caller *caller, uint16_t *number) {
  const uint32_t code = covetrivet_enter(caller, number != NULL);
  return code ? code : covetrivet_leave(caller, covetrivet_number(caller, number));
}
static inline uint32_t covetrivet_tested_room(covetrivet_caller *caller, covetrivet_left *room) {
  const uint32_t code = covetrivet_enter(caller, room != NULL);
  return code ? code : covetrivet_leave(caller, covetrivet_room(caller, room));
}
static inline uint32_t covetrivet_tested_has_open(covetrivet_caller *caller, uint8_t *is_open) {
  const uint32_t code = covetrivet_enter(caller, is_open != NULL);
  return code ? code : covetrivet_leave(caller, covetrivet_has_open(caller, is_open));
}
static inline uint32_t covetrivet_tested_low(covetrivet_caller *caller, uint8_t stage, uint16_t part, uint16_t
    *low) {
  const uint32_t code = covetrivet_enter(caller, low != NULL);
  return code ? code : covetrivet_leave(caller, covetrivet_low(caller, stage, part, low));
}
static inline uint32_t covetrivet_tested_seen_blocks(covetrivet_caller *caller, uint16_t *blocks) {
  const uint32_t code = covetrivet_enter(caller, blocks != NULL);
  return code ? code : covetrivet_leave(caller, covetrivet_seen_blocks(caller, blocks));
}
static inline uint32_t covetrivet_tested_meet(covetrivet_caller *first, covetrivet_caller *second) {
  uint32_t code = covetrivet_enter(first, second != NULL);
  if (code != COVETRIVET_OK) return code;
  code = first == second ? (uint32_t)COVETRIVET_IN_USE : covetrivet_enter(second, 1);
  if (code != COVETRIVET_OK) return covetrivet_leave(first, code);
  if (first->of && second->of && first->of != second->of) code = COVETRIVET_OTHER_MANAGER;
  else code = covetrivet_meet(first, second);
  return covetrivet_leave(first, covetrivet_leave(second, code));
}

/* ---- bells, and what was lost ---- */

/* Hangs a bell: a submit, a commit, an abort, a release and a requeue ring it from then on, of the callers that are
 * opened after this. It is there until they are closed. Null takes it away. */
static inline uint32_t covetrivet_hang(covetrivet_manager *manager, covetrivet_bell *bell) {
  const uint32_t code = covetrivet_enter_manager(manager, 1);
  if (code != COVETRIVET_OK) return code;
  manager->bell = bell;
  return covetrivet_leave_manager(manager, COVETRIVET_OK);
}

/* Takes over the caller with this number, which was opened, and whose handle nothing will use any more: its thread
 * has ended between two calls without handing it back, say. It is at home then, with the unit of work that it has
 * open, and is opened here. Only once: what the lost handle led to is gone. NO_PART where no caller of this number
 * is open; CLOSED_HANDLE, OPEN_HANDLE; NO_MEMORY, where it is at home. */
static inline uint32_t covetrivet_adopt(covetrivet_manager *manager, uint16_t number, covetrivet_caller *caller) {
  covetrivet_caller lost = COVETRIVET_CLOSED;
  uint32_t code = covetrivet_enter_both(manager, caller);
  if (code != COVETRIVET_OK) return code;
  if (!manager->at) code = COVETRIVET_CLOSED_HANDLE;
  else if (caller->at) code = COVETRIVET_OPEN_HANDLE;
  else if (number >= COVETRIVET_MOST_CALLERS || !manager->lent[number].at) code = COVETRIVET_NO_PART;
  if (code != COVETRIVET_OK) return covetrivet_leave_both(manager, caller, code);
  lost.at = manager->lent[number].at;
  manager->lent[number].at = NULL;
  manager->lent[number].mark = 0;
  code = covetrivet_hand_back(manager, &lost);
  if (code == COVETRIVET_OK) code = covetrivet_open_number(manager, number, caller);
  if (code == COVETRIVET_OK) covetrivet_note(manager, caller);
  return covetrivet_leave_both(manager, caller, code);
}

#define covetrivet_make covetrivet_tested_make
#define covetrivet_give_up covetrivet_tested_give_up
#define covetrivet_open covetrivet_tested_open
#define covetrivet_open_number covetrivet_tested_open_number
#define covetrivet_hand_back covetrivet_tested_hand_back
#define covetrivet_close covetrivet_tested_close
#define covetrivet_get_limits covetrivet_tested_get_limits
#define covetrivet_capacity covetrivet_tested_capacity
#define covetrivet_account covetrivet_tested_account
#define covetrivet_gather covetrivet_tested_gather
#define covetrivet_roll_over covetrivet_tested_roll_over
#define covetrivet_moved_at covetrivet_tested_moved_at
#define covetrivet_submit covetrivet_tested_submit
#define covetrivet_read covetrivet_tested_read
#define covetrivet_rounds covetrivet_tested_rounds
#define covetrivet_reply covetrivet_tested_reply
#define covetrivet_next_error covetrivet_tested_next_error
#define covetrivet_family covetrivet_tested_family
#define covetrivet_collect covetrivet_tested_collect
#define covetrivet_collect_next covetrivet_tested_collect_next
#define covetrivet_requeue covetrivet_tested_requeue
#define covetrivet_kill covetrivet_tested_kill
#define covetrivet_cancel covetrivet_tested_cancel
#define covetrivet_release covetrivet_tested_release
#define covetrivet_claim covetrivet_tested_claim
#define covetrivet_claim_next covetrivet_tested_claim_next
#define covetrivet_claim_id covetrivet_tested_claim_id
#define covetrivet_abort covetrivet_tested_abort
#define covetrivet_commit covetrivet_tested_commit
#define covetrivet_number covetrivet_tested_number
#define covetrivet_room covetrivet_tested_room
#define covetrivet_has_open covetrivet_tested_has_open
#define covetrivet_low covetrivet_tested_low
#define covetrivet_seen_blocks covetrivet_tested_seen_blocks
#define covetrivet_meet covetrivet_tested_meet

#endif
