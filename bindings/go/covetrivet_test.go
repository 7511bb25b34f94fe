package covetrivet

import (
	"errors"
	"runtime"
	"sync"
	"testing"
)

var small = Limits{Parts: 2, Rows: 8, Units: 8, Spare: 1, Attempts: 2}

func must[T any](t *testing.T) func(T, error) T {
	return func(value T, err error) T {
		t.Helper()
		if err != nil {
			t.Fatal(err)
		}
		return value
	}
}

func is(t *testing.T, err error, wanted Error) {
	t.Helper()
	if !errors.Is(err, wanted) {
		t.Fatalf("%v and not %v", err, wanted)
	}
}

func TestOneElement(t *testing.T) {
	manager := must[*Manager](t)(Make(small))
	client, server := must[*Caller](t)(manager.Open()), must[*Caller](t)(manager.OpenNumber(1))
	_, err := manager.Open()
	is(t, err, NoPart)
	root := must[uint32](t)(client.Submit(1, Body{2, 3}))
	work, found, err := server.Claim(1)
	if err != nil || !found || work.Element.Body != (Body{2, 3}) || work.Attempt != 1 || work.Element.ID != root {
		t.Fatal(work, found, err)
	}
	_, _, err = server.ClaimNext(1)
	is(t, err, Busy)
	if _, status, err := client.Read(root); err != nil || status != (Status{work.Unit, Held, 1}) {
		t.Fatal(status, err)
	}
	if _, err = server.Commit(make([]Draft, 5)...); err != ErrTooMany {
		t.Fatal(err)
	}
	must[uint32](t)(server.Commit(Draft{Replies, Body{5}}))
	reply, found, err := client.CollectNext(root)
	if err != nil || !found || reply.Body != (Body{5}) || reply.Root != root {
		t.Fatal(reply, found, err)
	}
	if _, found, err = client.CollectNext(root); err != nil || found {
		t.Fatal(found, err)
	}
	_, err = manager.Account(0)
	is(t, err, NotAll)
	if err = server.Close(); err != nil {
		t.Fatal(err)
	}
	if err = client.Close(); err != nil {
		t.Fatal(err)
	}
	if counts := must[Counts](t)(manager.Account(0)); counts != (Counts{Consumed: 1, Killed: 1}) {
		t.Fatal(counts)
	}
	_, err = client.Submit(1, Body{})
	is(t, err, Closed)
}

func TestWhatFailsAndGoesOn(t *testing.T) {
	manager := must[*Manager](t)(Make(small))
	me := must[*Caller](t)(manager.Open())
	id := must[uint32](t)(me.Submit(1, Body{}))
	for range [2]int{} {
		must[Work](t)(me.ClaimID(id))
		if err := me.Abort(); err != nil {
			t.Fatal(err)
		}
	}
	if parked, found, err := me.NextError(0); err != nil || !found || parked != id {
		t.Fatal(parked, found, err)
	}
	if round := must[uint8](t)(me.Requeue(id)); round != 1 {
		t.Fatal(round)
	}
	must[Work](t)(me.ClaimID(id))
	is(t, me.Release(id), Busy)
	if err := me.Close(); err != nil {
		t.Fatal(err)
	}
	moved := must[[]Moved](t)(manager.RollOver(small))
	if len(moved) != 1 || moved[0].OldID != id || moved[0].Holder != 0 {
		t.Fatal(moved)
	}
	me, other := must[*Caller](t)(manager.OpenNumber(0)), must[*Caller](t)(manager.Open())
	must[uint8](t)(other.Kill(moved[0].NewID))
	_, err := me.Commit()
	is(t, err, Lost)
	_, err = me.Commit()
	is(t, err, NoOpen)
	if killed := must[uint32](t)(me.Cancel(moved[0].NewRoot)); killed != 0 {
		t.Fatal(killed)
	}
}

func TestACallerThatIsLostComesHome(t *testing.T) {
	manager := must[*Manager](t)(Make(small))
	func() { must[uint32](t)(must[*Caller](t)(manager.Open()).Submit(1, Body{})) }()
	for turn := 0; ; turn++ {
		runtime.GC()
		if counts, err := manager.Account(0); err == nil {
			if counts.Waiting != 1 {
				t.Fatal(counts)
			}
			return
		} else if is(t, err, NotAll); turn == 1000 {
			t.Fatal("it didn't come home")
		}
		runtime.Gosched()
	}
}

func TestOneCallerOfManyGoroutines(t *testing.T) {
	manager := must[*Manager](t)(Make(Limits{Parts: 1, Rows: 256, Units: 1, Spare: 0, Attempts: 1}))
	me := must[*Caller](t)(manager.Open())
	var all sync.Map
	var group sync.WaitGroup
	for range [4]int{} {
		group.Add(1)
		go func() {
			defer group.Done()
			for {
				id, err := me.Submit(1, Body{})
				if errors.Is(err, InUse) {
					runtime.Gosched()
				} else if errors.Is(err, Full) {
					return
				} else if _, twice := all.LoadOrStore(id, true); err != nil || twice {
					t.Error(id, err)
					return
				}
			}
		}()
	}
	group.Wait()
}
