/* covetrivet.h: a queued transaction manager in memory, without locks, for the threads of a program.
 *
 * A manager holds elements in stages. A caller is one thread's way to act on it: it submits elements, claims
 * one of a stage into a unit of work, and commits that with up to four outputs, or aborts it. docs/C.md
 * lists the duties that stay the caller's. In short:
 *
 * - A handle is zeros (COVETRIVET_CLOSED) before it is opened, and is never copied while it is open
 *   (covetrivet_move moves it). The library owns what it leads to, until it is closed, handed back or given up.
 * - One thread at a time uses a handle. It may go to another thread over a lock, a thread's start or join,
 *   or a sequentially consistent atomic. Different callers of one manager act at the same time.
 * - No pointer is null, and no two of one call overlap.
 * - A caller comes home to its own manager, and two that meet are of one.
 *
 * This page tests these, and answers a code: covetrivet_tested.h says what, and when. Where COVETRIVET_UNTESTED
 * is defined before it, the library is called as it is, and tests none of them.
 *
 * - What a call writes, it writes where it answers COVETRIVET_OK, and nowhere else.
 *
 * What becomes of an element:
 *
 * - It waits until a claim takes it into a unit of work, which holds it then. A commit consumes it. An abort, a
 *   release, or a commit that answers FULL is an attempt that failed: the element waits again, and after
 *   `attempts` of these it is parked. A requeue gives it as many anew, three times at most. A commit that answers
 *   LOST or FULL_LOST is none: another caller had ended that attempt, by a release, or had killed the element.
 * - A kill, a cancel, and of a reply a collect, kills it. What is consumed or killed stays so.
 * - A client's element is the root of its family: of itself, and of all outputs that units made of it, and of
 *   these.
 *
 * No call waits: who finds IDLE or NONE asks again later, or sleeps by covetrivet_wait.h until something is there.
 *
 * Rows and units of work are used once, and what is finished gives none back. So FULL, FULL_LOST and NO_UNIT mean
 * that it is time for covetrivet_roll_over: each thread hands its caller back, one of them rolls over, and each
 * opens one again. Who has a unit of work open needn't end it before: it opens the caller of the same number, which
 * has it in hand.
 *
 * Each function answers one of the codes below, but for covetrivet_version, covetrivet_size and covetrivet_name.
 * Each may be called in any state of its handles: what it cannot do has a code. Memory is taken by make, open and
 * roll_over alone. */
#ifndef COVETRIVET_H
#define COVETRIVET_H

#include <stddef.h>
#include <stdint.h>
#include <string.h>

#define COVETRIVET_VERSION_MAJOR 0
#define COVETRIVET_VERSION_MINOR 25
#define COVETRIVET_VERSION_PATCH 0
/* 1000 times the major, plus the minor, then 1000 times that, plus the patch. */
#define COVETRIVET_VERSION 25000

#ifdef __cplusplus
extern "C" {
#endif

/* ---- what crosses ---- */

/* The library uses `at` of a handle, and nothing else of it. What follows is for the tests of this page. */
#define COVETRIVET_MOST_CALLERS 32

/* What is called where something may have come to wait in a stage, 1 to 15, or with 0 in any. covetrivet_wait.h has
 * one that wakes threads and loops of events. */
typedef struct covetrivet_bell {
  void (*ring)(struct covetrivet_bell *bell, unsigned stage);
} covetrivet_bell;

/* A manager, with the callers that nobody has. */
typedef struct covetrivet_manager {
  void *at;
  uint32_t kind;
  uint8_t in_use;
  uint64_t mark; /* its own number among all handles */
  covetrivet_bell *bell;
  /* what the open callers lead to, by number, and the marks of their handles */
  struct { void *at; uint64_t mark; } lent[COVETRIVET_MOST_CALLERS];
} covetrivet_manager;

/* A caller. It goes on where its manager was given up. Each call writes to its handle, so `apart`, which nothing
 * uses, keeps the handles of several threads from sharing a line of the cache in an array. */
typedef struct covetrivet_caller {
  void *at;
  uint32_t kind;
  uint16_t number;
  uint8_t in_use;
  uint8_t stage;     /* of what it claimed last; 0 where that isn't known */
  uint64_t of, mark; /* the marks of its manager, and its own */
  struct covetrivet_caller *self;
  covetrivet_bell *bell;
  uint64_t apart[10];
} covetrivet_caller;
/* What a handle is before it is opened. */
#ifdef __cplusplus
#define COVETRIVET_CLOSED { }
#else
#define COVETRIVET_CLOSED { 0 }
#endif

/* The limits of a manager. */
typedef struct covetrivet_limits {
  uint16_t parts;   /* callers, 1 to 32 */
  uint16_t rows;    /* elements that each makes in rows of its own, 1 to 256 */
  uint16_t units;   /* units of work that each begins, 1 to 1024 */
  uint16_t spare;   /* spare blocks of 8 rows, for any of them, 0 to 256 */
  uint8_t attempts; /* attempts before an element is parked, 1 to 7 */
} covetrivet_limits;

/* An element. Nothing of it ever changes. */
typedef struct covetrivet_element {
  uint64_t body[4];
  uint32_t id;   /* from 0 on, below the capacity; a rollover gives a new one */
  uint32_t root; /* the id of the client's element that it goes back to; that one's own is its id */
  uint32_t by;   /* the unit of work that made it; COVETRIVET_BY_CLIENT where a client submitted it */
  uint8_t stage; /* 1 to 14, or COVETRIVET_REPLIES */
} covetrivet_element;
#define COVETRIVET_BY_CLIENT 65536u
#define COVETRIVET_REPLIES 15

/* What a claim hands out: an element, and the unit of work that holds it from then on. */
typedef struct covetrivet_work {
  covetrivet_element element;
  uint16_t unit;
  uint8_t attempt; /* the how manieth of its round, from 1 on */
} covetrivet_work;

/* How an element stands: one of these kinds. */
enum {
  COVETRIVET_WAITING = 0,  /* attempts: how many units of its round were aborted */
  COVETRIVET_HELD = 1,     /* unit, attempts: which unit holds it, and the how manieth that is */
  COVETRIVET_CONSUMED = 2, /* unit: which unit took it and committed */
  COVETRIVET_PARKED = 3,   /* attempts: all that a round has were aborted */
  COVETRIVET_KILLED = 4
};
typedef struct covetrivet_status {
  uint16_t unit; /* 0 where the kind has none */
  uint8_t kind;
  uint8_t attempts; /* 0 where the kind has none */
} covetrivet_status;

/* An element, and how it stood at a point of the call. */
typedef struct covetrivet_look {
  covetrivet_element element;
  covetrivet_status status;
} covetrivet_look;

/* An output of a unit of work, before it is born. */
typedef struct covetrivet_draft {
  uint64_t body[4];
  uint8_t stage; /* 1 to 14, or COVETRIVET_REPLIES */
} covetrivet_draft;

/* The outputs that a commit made: so many, with ids from `first` on; 0 and 0 for none. */
typedef struct covetrivet_born {
  uint32_t first;
  uint8_t count;
} covetrivet_born;

/* The unit of work that a release aborted. */
typedef struct covetrivet_released {
  uint16_t unit;
  uint8_t attempt;
} covetrivet_released;

/* What is left to a caller, spare blocks aside. */
typedef struct covetrivet_left {
  uint16_t rows;
  uint16_t units;
} covetrivet_left;

/* How many elements there are of each kind of status. Replies that were collected are killed. */
typedef struct covetrivet_counts {
  uint32_t waiting, held, consumed, parked, killed;
} covetrivet_counts;

/* One element that a rollover carried over: its id and its root's, in the old manager and in the new one. */
typedef struct covetrivet_moved {
  uint32_t old_id, new_id, old_root, new_root;
  uint32_t holder; /* the number of the caller that has it in hand in either; COVETRIVET_NOBODY where none has */
} covetrivet_moved;
#define COVETRIVET_NOBODY 65536u

/* ---- the codes ---- */

enum {
  COVETRIVET_OK = 0,
  COVETRIVET_CLOSED_HANDLE = 1,  /* a handle leads to nothing */
  COVETRIVET_OPEN_HANDLE = 2,    /* the handle that is to be opened leads to something */
  COVETRIVET_NO_MEMORY = 3,      /* memory could not be had; nothing has changed */
  COVETRIVET_BAD_LIMITS = 4,     /* a limit is outside its range */
  COVETRIVET_NO_PART = 5,        /* no caller is at home: all are open; or not the one of this number */
  COVETRIVET_BAD_STAGE = 6,      /* not a stage of this call; of claim_id: a reply; of collect: no reply */
  COVETRIVET_NOT_THERE = 7,      /* no such element was born */
  COVETRIVET_WAS_CONSUMED = 8,   /* a unit that took the element has committed */
  COVETRIVET_ALREADY_KILLED = 9, /* it was killed before, or collected */
  COVETRIVET_FULL = 10,          /* no row and no spare block is left; of a commit: it has aborted its unit */
  COVETRIVET_NOT_PARKED = 11,
  COVETRIVET_NO_ROUND = 12,      /* it is parked, and has had its three further rounds */
  COVETRIVET_NOT_HELD = 13,
  COVETRIVET_NOT_WAITING = 14,   /* it is held, parked, consumed or killed */
  COVETRIVET_NO_UNIT = 15,       /* the caller has used its units of work */
  COVETRIVET_IDLE = 16,          /* nothing of the stage was found to wait */
  COVETRIVET_LOST = 17,          /* another caller had aborted the unit of work: none of it is seen */
  COVETRIVET_NONE = 18,          /* there is none */
  COVETRIVET_BUSY = 19,          /* the caller has a unit of work open */
  COVETRIVET_NO_OPEN = 20,       /* it has none open */
  COVETRIVET_TOO_MANY = 21,      /* more than four drafts */
  COVETRIVET_BAD_DRAFT = 22,     /* a draft's stage is not 1 to 15 */
  COVETRIVET_NOT_ALL = 23,       /* a caller is not at home */
  COVETRIVET_UNEQUAL = 24,       /* no call tells it: a rollover is never refused so, which is proved */
  COVETRIVET_FULL_LOST = 26      /* as FULL of a commit, but another caller had aborted its unit, as for LOST */
};
/* And those of this page's own tests. Nothing has changed then. */
enum {
  COVETRIVET_NULL = 25,          /* a pointer is null */
  COVETRIVET_IN_USE = 27,        /* another call uses a handle, or this one uses it twice */
  COVETRIVET_WRONG_HANDLE = 28,  /* a manager's handle is given for a caller's, the other way, or what is none */
  COVETRIVET_OTHER_MANAGER = 29, /* the caller is of another manager */
  COVETRIVET_COPIED_HANDLE = 30  /* the handle is a copy of one that is open, or was moved otherwise than by move */
};

/* ---- managers and callers ---- */

/* Makes a manager with these limits, all of whose callers are at home. The handle is closed before.
 * BAD_LIMITS, NO_MEMORY, OPEN_HANDLE. */
uint32_t covetrivet_make(const covetrivet_limits *limits, covetrivet_manager *manager);

/* Gives up a manager: its handle is closed, and the callers at home are gone. The others go on. OK also where it
 * is closed. */
uint32_t covetrivet_give_up(covetrivet_manager *manager);

/* Opens a caller: the one at home with the least number. Its handle is closed before. NO_PART, NO_MEMORY (no
 * caller is lost), CLOSED_HANDLE of the manager, OPEN_HANDLE of the caller. */
uint32_t covetrivet_open(covetrivet_manager *manager, covetrivet_caller *caller);

/* The same, of the caller with this number. NO_PART where it isn't at home. */
uint32_t covetrivet_open_number(covetrivet_manager *manager, uint16_t number, covetrivet_caller *caller);

/* Hands a caller back: it is at home again, in any order, and its handle is closed. A unit of work that it has
 * open stays so, and whoever opens the caller next has it. CLOSED_HANDLE; OTHER_MANAGER. (NO_MEMORY only where the
 * library is called as it is, with a caller of another manager.) */
uint32_t covetrivet_hand_back(covetrivet_manager *manager, covetrivet_caller *caller);

/* The same in any state of both handles, for ends of every kind. OK where the caller is closed. Where the manager
 * is, since it was given up, the caller is gone for good, with the rest of it. (A caller whose handle was lost is
 * brought home by covetrivet_adopt, of covetrivet_tested.h.) */
uint32_t covetrivet_close(covetrivet_manager *manager, covetrivet_caller *caller);

/* The limits that the manager was made with, and how many elements it has room for, at most 10,240. */
uint32_t covetrivet_get_limits(covetrivet_manager *manager, covetrivet_limits *limits);
uint32_t covetrivet_capacity(covetrivet_manager *manager, uint32_t *capacity);

/* ---- with all callers at home ---- */

/* How many elements there are of each kind of status, of one history, which all callers have seen then: of a
 * stage, 1 to 15, or with 0 of all stages. NOT_ALL, BAD_STAGE. */
uint32_t covetrivet_account(covetrivet_manager *manager, uint8_t stage, covetrivet_counts *counts);

/* All callers look until all have seen one history. NOT_ALL. */
uint32_t covetrivet_gather(covetrivet_manager *manager);

/* What waits, is parked or is held, replies too, goes on in a new manager with these limits, each element once,
 * and nothing else does. The handle leads to the new manager then, all of whose callers are at home. How many
 * elements that are. Their order, bodies, stages, attempts and rounds are as they were, and their ids are not:
 * see covetrivet_moved_at. What a caller held, the caller of the same number has in hand, in the same attempt,
 * under a new unit of work; no other has one open. So a unit that another caller had aborted is over: its
 * commit, which would have answered LOST, answers NO_OPEN. Where an element's root had been consumed, the new
 * root is one that was made and consumed in the rollover. It took a row and a unit of work, as each such one,
 * and account counts them.
 * NOT_ALL, BAD_LIMITS (also where `attempts` differs, or the new limits have no caller of a number that has a
 * unit open), FULL (they have not the rows or the units), NO_MEMORY: where it is refused the old manager stands
 * as it did. */
uint32_t covetrivet_roll_over(covetrivet_manager *manager, const covetrivet_limits *limits, size_t *count);

/* The element that the last rollover carried over in this place, from 0 on, by ascending ids. NONE behind the
 * last. Of one family all have one old root, and one new root: a client whose request is old_root goes on with
 * new_root. A request of which nothing is named has nothing left that waits, is parked or is held. */
uint32_t covetrivet_moved_at(covetrivet_manager *manager, size_t place, covetrivet_moved *moved);

/* ---- of a client ---- */

/* Puts an element into the queue of a stage, 1 to 14. Its id. BAD_STAGE, FULL. */
uint32_t covetrivet_submit(covetrivet_caller *caller, uint8_t stage, const uint64_t body[4], uint32_t *id);

/* The element with this id, and how it stands. NOT_THERE. */
uint32_t covetrivet_read(covetrivet_caller *caller, uint32_t id, covetrivet_look *look);

/* How many further rounds of attempts it was given, 0 to 3. NOT_THERE. */
uint32_t covetrivet_rounds(covetrivet_caller *caller, uint32_t id, uint8_t *rounds);

/* The least id from `from` on: of a waiting reply to the request with this root; of an element that is parked;
 * of an element of the request's family, with its status. NONE. */
uint32_t covetrivet_reply(covetrivet_caller *caller, uint32_t root, uint32_t from, uint32_t *id);
uint32_t covetrivet_next_error(covetrivet_caller *caller, uint32_t from, uint32_t *id);
uint32_t covetrivet_family(covetrivet_caller *caller, uint32_t root, uint32_t from, covetrivet_look *look);

/* Takes a reply, once, by killing it: the one with this id, or the waiting one with the least id to the request
 * with this root. The caller has no unit open. NOT_THERE, BAD_STAGE (no reply), ALREADY_KILLED, BUSY of the
 * first; NONE, BUSY of the second. */
uint32_t covetrivet_collect(covetrivet_caller *caller, uint32_t id, covetrivet_element *element);
uint32_t covetrivet_collect_next(covetrivet_caller *caller, uint32_t root, covetrivet_element *element);

/* Gives a parked element another round of attempts: it waits again, with none so far. Which, 1 to 3. NOT_THERE,
 * NOT_PARKED, NO_ROUND. */
uint32_t covetrivet_requeue(covetrivet_caller *caller, uint32_t id, uint8_t *round);

/* Kills an element. How many units of work that held it were aborted. NOT_THERE, WAS_CONSUMED,
 * ALREADY_KILLED, BUSY. A refused kill may have aborted units. */
uint32_t covetrivet_kill(covetrivet_caller *caller, uint32_t id, uint8_t *aborted);

/* Cancels a request: kills each element of its family that is no reply and neither consumed nor killed, and
 * aborts the units of work that hold one: these answer LOST. How many it killed; with 0 all were finished, and
 * replies may be there. Nothing of the family but its replies is taken, committed or made any more. NOT_THERE
 * (no client's element has this id), BUSY. */
uint32_t covetrivet_cancel(covetrivet_caller *caller, uint32_t root, uint32_t *killed);

/* Aborts the unit of work that holds an element. Which that was. NOT_THERE, NOT_HELD, BUSY. */
uint32_t covetrivet_release(covetrivet_caller *caller, uint32_t id, covetrivet_released *released);

/* ---- of a server ---- */

/* Takes an element of a stage, 1 to 14, into a new unit of work: of those that wait the one with the least id;
 * the one that comes next, as in a circle, behind the one that this caller took last by claim_next, so that one
 * that is given up again and again lets others pass; the one with this id. The caller has no unit open.
 * BAD_STAGE, BUSY, NO_UNIT; IDLE of the first two; NOT_THERE, NOT_WAITING of the last. */
uint32_t covetrivet_claim(covetrivet_caller *caller, uint8_t stage, covetrivet_work *work);
uint32_t covetrivet_claim_next(covetrivet_caller *caller, uint8_t stage, covetrivet_work *work);
uint32_t covetrivet_claim_id(covetrivet_caller *caller, uint32_t id, covetrivet_work *work);

/* Gives up the open unit of work: its element waits again, or is parked. After LOST too none is open. NO_OPEN,
 * LOST. */
uint32_t covetrivet_abort(covetrivet_caller *caller);

/* Commits the open unit of work: in one step its element is consumed and the drafts are born, in rows of this
 * caller. At most four, and `drafts` may be null where there is none. LOST, which uses up the drafts' rows, FULL
 * and FULL_LOST, which use none: none is open after them. NO_OPEN, TOO_MANY, BAD_DRAFT, which change nothing. */
uint32_t covetrivet_commit(covetrivet_caller *caller, const covetrivet_draft *drafts, size_t count,
                           covetrivet_born *born);

/* ---- of a caller alone, and of two ---- */

/* The number of the caller, from 0 on; what is left to it; 1 where it has a unit of work open, and else 0. */
uint32_t covetrivet_number(covetrivet_caller *caller, uint16_t *number);
uint32_t covetrivet_room(covetrivet_caller *caller, covetrivet_left *room);
uint32_t covetrivet_has_open(covetrivet_caller *caller, uint8_t *is_open);

/* How many first rows of a part have nothing alive of a stage, 1 to 15, or with 0 of any, as the caller last
 * found it; and how many spare blocks were drawn. */
uint32_t covetrivet_low(covetrivet_caller *caller, uint8_t stage, uint16_t part, uint16_t *low);
uint32_t covetrivet_seen_blocks(covetrivet_caller *caller, uint16_t *blocks);

/* Two callers show each other what they have seen. OTHER_MANAGER, IN_USE of one with itself. */
uint32_t covetrivet_meet(covetrivet_caller *first, covetrivet_caller *second);

/* ---- the library itself, and tests of null ---- */

/* The version of the library, as COVETRIVET_VERSION; and the size of each type that crosses, by its place in
 * the list above, from covetrivet_limits (0) to covetrivet_moved (10); what the library uses of a manager's and of
 * a caller's handle (11, 12); 0 behind it. */
uint32_t covetrivet_version(void);
size_t covetrivet_size(uint32_t type);

#ifndef COVETRIVET_UNTESTED
#include "covetrivet_tested.h"
#endif

/* ---- in several calls ---- */

/* The name of a code, as "NOT_ALL"; "?" of what is none. */
static inline const char *covetrivet_name(uint32_t code) {
  static const char *const names[] = {
    "OK", "CLOSED_HANDLE", "OPEN_HANDLE", "NO_MEMORY", "BAD_LIMITS", "NO_PART", "BAD_STAGE", "NOT_THERE",
    "WAS_CONSUMED", "ALREADY_KILLED", "FULL", "NOT_PARKED", "NO_ROUND", "NOT_HELD", "NOT_WAITING", "NO_UNIT", "IDLE",
    "LOST", "NONE", "BUSY", "NO_OPEN", "TOO_MANY", "BAD_DRAFT", "NOT_ALL", "UNEQUAL", "NULL", "FULL_LOST", "IN_USE",
    "WRONG_HANDLE", "OTHER_MANAGER", "COPIED_HANDLE" };
  return code < sizeof names / sizeof *names ? names[code] : "?";
}

/* Moves an open handle, which nothing uses, to where it is to be used from now on. The other is closed then. */
static inline void covetrivet_move(covetrivet_caller *from, covetrivet_caller *to) {
  const covetrivet_caller closed = COVETRIVET_CLOSED;
  *to = *from;
  if (to->self == from) to->self = to;
  *from = closed;
}

/* A rollover into a manager with these limits, or with the same where it is null, which writes what it carried over:
 * the first `room` of `count`. */
static inline uint32_t covetrivet_succeed(covetrivet_manager *manager, const covetrivet_limits *limits,
                                          covetrivet_moved *moved, size_t room, size_t *count) {
  covetrivet_limits same = { 0, 0, 0, 0, 0 };
  size_t place;
  uint32_t code = limits ? (uint32_t)COVETRIVET_OK : covetrivet_get_limits(manager, &same);
  if (code == COVETRIVET_OK) code = covetrivet_roll_over(manager, limits ? limits : &same, count);
  if (code != COVETRIVET_OK) return code;
  for (place = 0; place < room && place < *count; place++)
    if ((code = covetrivet_moved_at(manager, place, &moved[place])) != COVETRIVET_OK) return code;
  return COVETRIVET_OK;
}

/* How many elements of each stage, 1 to 15, and with 0 of all stages, one caller finds of each kind of status, by a
 * read of each id below the capacity, while the others act: each as it stood at a point of the call, and not all at
 * one. It takes a millisecond at most. (covetrivet_account, with all callers at home, is of one history.) */
static inline uint32_t covetrivet_depths(covetrivet_caller *caller, uint32_t capacity,
                                         covetrivet_counts depths[16]) {
  covetrivet_look look;
  uint32_t id, code;
  size_t k;
  for (k = 0; k < 16; k++) {
    const covetrivet_counts none = { 0, 0, 0, 0, 0 };
    depths[k] = none;
  }
  for (id = 0; id < capacity; id++) {
    code = covetrivet_read(caller, id, &look);
    if (code == COVETRIVET_NOT_THERE) continue;
    if (code != COVETRIVET_OK) return code;
    for (k = 0; k < 2; k++) {
      covetrivet_counts *of = &depths[k ? look.element.stage : 0];
      of->waiting += look.status.kind == COVETRIVET_WAITING;
      of->held += look.status.kind == COVETRIVET_HELD;
      of->consumed += look.status.kind == COVETRIVET_CONSUMED;
      of->parked += look.status.kind == COVETRIVET_PARKED;
      of->killed += look.status.kind == COVETRIVET_KILLED;
    }
  }
  return COVETRIVET_OK;
}

#ifdef __cplusplus
}
#endif
#endif
