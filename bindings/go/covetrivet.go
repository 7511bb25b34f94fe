// Package covetrivet is a queued transaction manager in memory, without locks, for goroutines: the C library
// (docs/C.md of the repository) by cgo, through its header, which tests the handles.
//
// A Manager may be used by many goroutines, and a Caller by one at a time: a call of a caller that another goroutine
// is using answers InUse. No call waits: who finds nothing asks again later.
package covetrivet

/*
#cgo pkg-config: covetrivet
#include <stdlib.h>
#undef NDEBUG
#include <covetrivet.h>

static covetrivet_manager *new_manager(void) { return calloc(1, sizeof(covetrivet_manager)); }
static covetrivet_caller *new_caller(void) { return calloc(1, sizeof(covetrivet_caller)); }
*/
import "C"

import (
	"errors"
	"runtime"
	"sync"
	"unsafe"
)

// Error is the code of a refusal. It has changed nothing, but where the header says so.
type Error uint32

// What a caller acts on. IDLE and NONE of the header are told by false.
const (
	NoMemory Error = C.COVETRIVET_NO_MEMORY
	Closed   Error = C.COVETRIVET_CLOSED_HANDLE
	NoPart   Error = C.COVETRIVET_NO_PART
	BadStage Error = C.COVETRIVET_BAD_STAGE
	NotThere Error = C.COVETRIVET_NOT_THERE
	Full     Error = C.COVETRIVET_FULL
	FullLost Error = C.COVETRIVET_FULL_LOST
	NoUnit   Error = C.COVETRIVET_NO_UNIT
	Lost     Error = C.COVETRIVET_LOST
	Busy     Error = C.COVETRIVET_BUSY
	NoOpen   Error = C.COVETRIVET_NO_OPEN
	NotAll   Error = C.COVETRIVET_NOT_ALL
	InUse    Error = C.COVETRIVET_IN_USE
)

// Replies is the stage of replies.
const Replies = C.COVETRIVET_REPLIES

func (e Error) Error() string { return "covetrivet: " + C.GoString(C.covetrivet_name(C.uint32_t(e))) }

func told(code C.uint32_t) error {
	if code == C.COVETRIVET_OK {
		return nil
	}
	return Error(code)
}

// found tells whether something was found; none is the code that says that there is nothing.
func found(code C.uint32_t, none C.uint32_t) (bool, error) {
	if code == none {
		return false, nil
	}
	err := told(code)
	return err == nil, err
}

// Limits of a manager: Parts callers, 1 to 32; Rows elements of each in rows of its own, 1 to 256; Units of work of
// each, 1 to 1024; Spare blocks of 8 rows for any, 0 to 256; Attempts before an element is parked, 1 to 7.
type Limits struct {
	Parts, Rows, Units, Spare uint16
	Attempts                  uint8
}

func (l Limits) plain() C.covetrivet_limits {
	return C.covetrivet_limits{parts: C.uint16_t(l.Parts), rows: C.uint16_t(l.Rows), units: C.uint16_t(l.Units),
		spare: C.uint16_t(l.Spare), attempts: C.uint8_t(l.Attempts)}
}

// Body of an element.
type Body [4]uint64

// Element of a queue. By is the unit of work that made it, or 65536 where a client submitted it.
type Element struct {
	Body         Body
	ID, Root, By uint32
	Stage        uint8
}

func elementOf(it *C.covetrivet_element) Element {
	return Element{Body: *(*Body)(unsafe.Pointer(&it.body)), ID: uint32(it.id), Root: uint32(it.root),
		By: uint32(it.by), Stage: uint8(it.stage)}
}

// Status of an element: one of the kinds of the header, with the unit and the attempts that go with it.
type Status struct {
	Unit           uint16
	Kind, Attempts uint8
}

// Kinds of a status.
const (
	Waiting = iota
	Held
	Consumed
	Parked
	Killed
)

// Work is what a claim took: an element, and the unit of work that holds it.
type Work struct {
	Element Element
	Unit    uint16
	Attempt uint8
}

// Draft of an output, before it is born.
type Draft struct {
	Stage uint8
	Body  Body
}

// Counts of elements by status.
type Counts struct{ Waiting, Held, Consumed, Parked, Killed uint32 }

// Moved is an element that a rollover carried over; Holder is 65536 where no caller has it in hand.
type Moved struct{ OldID, NewID, OldRoot, NewRoot, Holder uint32 }

// Manager of queued requests.
type Manager struct {
	lock sync.Mutex
	at   *C.covetrivet_manager
}

// Make makes a manager with these limits, all of whose callers are at home.
func Make(limits Limits) (*Manager, error) {
	plain, at := limits.plain(), C.new_manager()
	if at == nil {
		return nil, NoMemory
	}
	if err := told(C.covetrivet_tested_make(&plain, at)); err != nil {
		C.free(unsafe.Pointer(at))
		return nil, err
	}
	manager := &Manager{at: at}
	runtime.SetFinalizer(manager, func(it *Manager) {
		it.GiveUp()
		C.free(unsafe.Pointer(it.at))
	})
	return manager, nil
}

// GiveUp gives it up, with the callers at home. The others go on.
func (m *Manager) GiveUp() {
	m.lock.Lock()
	defer m.lock.Unlock()
	C.covetrivet_tested_give_up(m.at)
}

// Open opens the caller at home with the least number.
func (m *Manager) Open() (*Caller, error) {
	return m.open(func(at *C.covetrivet_caller) C.uint32_t { return C.covetrivet_tested_open(m.at, at) })
}

// OpenNumber opens the caller with this number, which has in hand what it held.
func (m *Manager) OpenNumber(number uint16) (*Caller, error) {
	return m.open(func(at *C.covetrivet_caller) C.uint32_t {
		return C.covetrivet_tested_open_number(m.at, C.uint16_t(number), at)
	})
}

func (m *Manager) open(by func(*C.covetrivet_caller) C.uint32_t) (*Caller, error) {
	at := C.new_caller()
	if at == nil {
		return nil, NoMemory
	}
	m.lock.Lock()
	defer m.lock.Unlock()
	if err := told(by(at)); err != nil {
		C.free(unsafe.Pointer(at))
		return nil, err
	}
	caller := &Caller{at: at, manager: m}
	runtime.SetFinalizer(caller, func(it *Caller) {
		_ = it.Close()
		C.free(unsafe.Pointer(it.at))
	})
	return caller, nil
}

// Account counts the elements of a stage, 1 to 15, or with 0 of all stages. NotAll where a caller isn't at home.
func (m *Manager) Account(stage uint8) (Counts, error) {
	m.lock.Lock()
	defer m.lock.Unlock()
	var it C.covetrivet_counts
	err := told(C.covetrivet_tested_account(m.at, C.uint8_t(stage), &it))
	return Counts{uint32(it.waiting), uint32(it.held), uint32(it.consumed), uint32(it.parked), uint32(it.killed)}, err
}

// RollOver goes on in a new manager with these limits, with what waits, is parked or is held.
func (m *Manager) RollOver(limits Limits) ([]Moved, error) {
	m.lock.Lock()
	defer m.lock.Unlock()
	plain, count := limits.plain(), C.size_t(0)
	if err := told(C.covetrivet_tested_roll_over(m.at, &plain, &count)); err != nil {
		return nil, err
	}
	all := make([]Moved, count)
	for place := range all {
		var it C.covetrivet_moved
		if err := told(C.covetrivet_tested_moved_at(m.at, C.size_t(place), &it)); err != nil {
			return nil, err
		}
		all[place] = Moved{uint32(it.old_id), uint32(it.new_id), uint32(it.old_root), uint32(it.new_root),
			uint32(it.holder)}
	}
	return all, nil
}

// Caller is one goroutine's way to act on a manager. One that nothing holds any more comes home.
type Caller struct {
	at      *C.covetrivet_caller
	manager *Manager
}

// Close takes the caller home, with what it has in hand, or gives it up where its manager was given up.
func (c *Caller) Close() error {
	c.manager.lock.Lock()
	defer c.manager.lock.Unlock()
	defer runtime.KeepAlive(c)
	return told(C.covetrivet_tested_close(c.manager.at, c.at))
}

// Number of the caller, from 0 on.
func (c *Caller) Number() (uint16, error) {
	defer runtime.KeepAlive(c)
	var number C.uint16_t
	err := told(C.covetrivet_tested_number(c.at, &number))
	return uint16(number), err
}

// Submit puts an element into the queue of a stage, 1 to 14. Its id.
func (c *Caller) Submit(stage uint8, body Body) (uint32, error) {
	defer runtime.KeepAlive(c)
	var id C.uint32_t
	err := told(C.covetrivet_tested_submit(c.at, C.uint8_t(stage), (*C.uint64_t)(&body[0]), &id))
	return uint32(id), err
}

// Read returns the element with this id, and how it stands.
func (c *Caller) Read(id uint32) (Element, Status, error) {
	defer runtime.KeepAlive(c)
	var it C.covetrivet_look
	err := told(C.covetrivet_tested_read(c.at, C.uint32_t(id), &it))
	return elementOf(&it.element), Status{uint16(it.status.unit), uint8(it.status.kind), uint8(it.status.attempts)}, err
}

// CollectNext takes the waiting reply with the least id to this request, once, if there is one.
func (c *Caller) CollectNext(root uint32) (Element, bool, error) {
	defer runtime.KeepAlive(c)
	var it C.covetrivet_element
	is, err := found(C.covetrivet_tested_collect_next(c.at, C.uint32_t(root), &it), C.COVETRIVET_NONE)
	return elementOf(&it), is, err
}

// NextError finds the least id from this one on of an element that is parked.
func (c *Caller) NextError(from uint32) (uint32, bool, error) {
	defer runtime.KeepAlive(c)
	var id C.uint32_t
	is, err := found(C.covetrivet_tested_next_error(c.at, C.uint32_t(from), &id), C.COVETRIVET_NONE)
	return uint32(id), is, err
}

// Requeue gives a parked element another round of attempts. Which, 1 to 3.
func (c *Caller) Requeue(id uint32) (uint8, error) {
	defer runtime.KeepAlive(c)
	var round C.uint8_t
	err := told(C.covetrivet_tested_requeue(c.at, C.uint32_t(id), &round))
	return uint8(round), err
}

// Kill kills an element. How many units of work that held it were aborted.
func (c *Caller) Kill(id uint32) (uint8, error) {
	defer runtime.KeepAlive(c)
	var aborted C.uint8_t
	err := told(C.covetrivet_tested_kill(c.at, C.uint32_t(id), &aborted))
	return uint8(aborted), err
}

// Cancel kills what isn't finished of a request. How many.
func (c *Caller) Cancel(root uint32) (uint32, error) {
	defer runtime.KeepAlive(c)
	var killed C.uint32_t
	err := told(C.covetrivet_tested_cancel(c.at, C.uint32_t(root), &killed))
	return uint32(killed), err
}

// Release aborts the unit of work that holds an element.
func (c *Caller) Release(id uint32) error {
	defer runtime.KeepAlive(c)
	var it C.covetrivet_released
	return told(C.covetrivet_tested_release(c.at, C.uint32_t(id), &it))
}

func workOf(it *C.covetrivet_work) Work {
	return Work{elementOf(&it.element), uint16(it.unit), uint8(it.attempt)}
}

// Claim takes the element of a stage, 1 to 14, that waits and has the least id, if there is one.
func (c *Caller) Claim(stage uint8) (Work, bool, error) {
	defer runtime.KeepAlive(c)
	var it C.covetrivet_work
	is, err := found(C.covetrivet_tested_claim(c.at, C.uint8_t(stage), &it), C.COVETRIVET_IDLE)
	return workOf(&it), is, err
}

// ClaimNext takes the one behind that which this caller took last so, as in a circle, if there is one.
func (c *Caller) ClaimNext(stage uint8) (Work, bool, error) {
	defer runtime.KeepAlive(c)
	var it C.covetrivet_work
	is, err := found(C.covetrivet_tested_claim_next(c.at, C.uint8_t(stage), &it), C.COVETRIVET_IDLE)
	return workOf(&it), is, err
}

// ClaimID takes the element with this id.
func (c *Caller) ClaimID(id uint32) (Work, error) {
	defer runtime.KeepAlive(c)
	var it C.covetrivet_work
	err := told(C.covetrivet_tested_claim_id(c.at, C.uint32_t(id), &it))
	return workOf(&it), err
}

// Abort gives up the open unit of work: its element waits again, or is parked.
func (c *Caller) Abort() error {
	defer runtime.KeepAlive(c)
	return told(C.covetrivet_tested_abort(c.at))
}

// ErrTooMany is told of more than four drafts.
var ErrTooMany = errors.New("covetrivet: more than four drafts")

// Commit commits the open unit of work with these outputs, at most four, in one step. The first of their ids, which
// follow one another. Lost, Full and FullLost: the unit is over.
func (c *Caller) Commit(drafts ...Draft) (uint32, error) {
	defer runtime.KeepAlive(c)
	var plain [4]C.covetrivet_draft
	var born C.covetrivet_born
	if len(drafts) > len(plain) {
		return 0, ErrTooMany
	}
	for place, it := range drafts {
		plain[place].stage = C.uint8_t(it.Stage)
		plain[place].body = *(*[4]C.uint64_t)(unsafe.Pointer(&it.Body))
	}
	err := told(C.covetrivet_tested_commit(c.at, &plain[0], C.size_t(len(drafts)), &born))
	return uint32(born.first), err
}
