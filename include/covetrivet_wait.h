/* covetrivet_wait.h: to sleep until an element may wait in a stage, where the calls of covetrivet.h answer at once.
 * It is C around the library, of which nothing is proved, and for Linux: a bell for each stage is a word that a
 * futex waits on, and whoever makes something wait rings it, where somebody sleeps.
 *
 *   static covetrivet_bells bells = COVETRIVET_BELLS;   of one manager, and of what it goes on in by rollovers
 *   covetrivet_hang(&manager, &bells.bell);             before its callers are opened
 *   code = covetrivet_claim_by(&caller, stage, covetrivet_soon(1000000000), &work, &bells);
 *
 * Who wants the sleepers for something else, as for a rollover or an end, calls covetrivet_ring(&bells, 0). They
 * look then, and may find nothing. A deadline is in nanoseconds of CLOCK_MONOTONIC; UINT64_MAX is none. */
#ifndef COVETRIVET_WAIT_H
#define COVETRIVET_WAIT_H

#include <covetrivet.h>
#include <errno.h>
#include <limits.h>
#include <linux/futex.h>
#include <sys/eventfd.h>
#include <sys/syscall.h>
#include <time.h>
#include <unistd.h>

#ifdef __cplusplus
extern "C" {
#endif

typedef struct covetrivet_bells {
  covetrivet_bell bell;
  uint32_t rung[COVETRIVET_REPLIES + 1];     /* how often each was rung while somebody slept */
  uint32_t sleepers[COVETRIVET_REPLIES + 1];
  int descriptor[COVETRIVET_REPLIES + 1];    /* what covetrivet_descriptor has opened, plus 1 */
} covetrivet_bells;

/* Wakes who sleeps for a stage, or with 0 for any. What was made to wait was so by a sequentially consistent step.
 * The look for sleepers here is one too, and so is that they are counted, before they look. So one of the two finds
 * the other. */
static inline void covetrivet_ring(covetrivet_bells *bells, unsigned stage) {
  const unsigned last = stage ? stage : COVETRIVET_REPLIES;
  int descriptor;
  for (stage = stage ? stage : 1; stage <= last && stage <= COVETRIVET_REPLIES; stage++) {
    descriptor = __atomic_load_n(&bells->descriptor[stage], __ATOMIC_SEQ_CST);
    if (descriptor) eventfd_write(descriptor - 1, 1);
    if (!__atomic_load_n(&bells->sleepers[stage], __ATOMIC_SEQ_CST)) continue;
    __atomic_add_fetch(&bells->rung[stage], 1, __ATOMIC_SEQ_CST);
    syscall(SYS_futex, &bells->rung[stage], FUTEX_WAKE_PRIVATE, INT_MAX, NULL, NULL, 0);
  }
}
static inline void covetrivet_ring_bells(covetrivet_bell *bell, unsigned stage) {
  covetrivet_ring((covetrivet_bells *)bell, stage);
}
#define COVETRIVET_BELLS { { covetrivet_ring_bells }, { 0 }, { 0 }, { 0 } }

/* The deadline that is so many nanoseconds from now. */
static inline uint64_t covetrivet_soon(uint64_t nanoseconds) {
  struct timespec now;
  clock_gettime(CLOCK_MONOTONIC, &now);
  return (uint64_t)now.tv_sec * 1000000000u + (uint64_t)now.tv_nsec + nanoseconds;
}

/* To sleep for whatever becomes of a stage: listen; note what was heard; look whether it is so; if not, wait by what
 * was heard, which is over once the bell was rung, a signal came, or the deadline is past (0 then). In the end leave
 * off. */
static inline void covetrivet_listen(covetrivet_bells *bells, unsigned stage) {
  __atomic_add_fetch(&bells->sleepers[stage], 1, __ATOMIC_SEQ_CST);
}
static inline uint32_t covetrivet_heard(covetrivet_bells *bells, unsigned stage) {
  return __atomic_load_n(&bells->rung[stage], __ATOMIC_SEQ_CST);
}
static inline int covetrivet_wait(covetrivet_bells *bells, unsigned stage, uint32_t heard, uint64_t deadline) {
  struct timespec until;
  until.tv_sec = (time_t)(deadline / 1000000000u);
  until.tv_nsec = (long)(deadline % 1000000000u);
  return syscall(SYS_futex, &bells->rung[stage], FUTEX_WAIT_BITSET_PRIVATE, heard,
                 deadline == UINT64_MAX ? NULL : &until, NULL, FUTEX_BITSET_MATCH_ANY) == 0 || errno != ETIMEDOUT;
}
static inline void covetrivet_leave_off(covetrivet_bells *bells, unsigned stage) {
  __atomic_sub_fetch(&bells->sleepers[stage], 1, __ATOMIC_SEQ_CST);
}

/* A claim in turn that waits for an element: IDLE only where the deadline is past, or the bell was rung otherwise
 * and none was found. */
static inline uint32_t covetrivet_claim_by(covetrivet_caller *caller, uint8_t stage, uint64_t deadline,
                                           covetrivet_work *work, covetrivet_bells *bells) {
  uint32_t heard, code = covetrivet_claim_next(caller, stage, work);
  if (code != COVETRIVET_IDLE) return code;
  covetrivet_listen(bells, stage);
  heard = covetrivet_heard(bells, stage);
  code = covetrivet_claim_next(caller, stage, work);
  if (code == COVETRIVET_IDLE && covetrivet_wait(bells, stage, heard, deadline))
    code = covetrivet_claim_next(caller, stage, work);
  covetrivet_leave_off(bells, stage);
  return code;
}

/* The same of the next reply to a request: NONE also where the bell was rung by another's. */
static inline uint32_t covetrivet_collect_by(covetrivet_caller *caller, uint32_t root, uint64_t deadline,
                                             covetrivet_element *reply, covetrivet_bells *bells) {
  uint32_t heard, code = covetrivet_collect_next(caller, root, reply);
  if (code != COVETRIVET_NONE) return code;
  covetrivet_listen(bells, COVETRIVET_REPLIES);
  heard = covetrivet_heard(bells, COVETRIVET_REPLIES);
  code = covetrivet_collect_next(caller, root, reply);
  if (code == COVETRIVET_NONE && covetrivet_wait(bells, COVETRIVET_REPLIES, heard, deadline))
    code = covetrivet_collect_next(caller, root, reply);
  covetrivet_leave_off(bells, COVETRIVET_REPLIES);
  return code;
}

/* A descriptor that can be read once a stage was rung since it was read last, for loops of events: an eventfd, which
 * stays open as long as the bells are used. -1 where there is none to be had. */
static inline int covetrivet_descriptor(covetrivet_bells *bells, unsigned stage) {
  int mine = __atomic_load_n(&bells->descriptor[stage], __ATOMIC_SEQ_CST), there = 0;
  if (mine) return mine - 1;
  mine = eventfd(0, EFD_CLOEXEC | EFD_NONBLOCK) + 1;
  if (!mine) return -1;
  if (__atomic_compare_exchange_n(&bells->descriptor[stage], &there, mine, 0, __ATOMIC_SEQ_CST, __ATOMIC_SEQ_CST))
    return mine - 1;
  close(mine - 1);
  return there - 1;
}

#ifdef __cplusplus
}
#endif
#endif
