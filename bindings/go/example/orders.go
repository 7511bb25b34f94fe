// Command orders is the order system of examples/library/orders.c on four goroutines.
package main

import (
	"fmt"
	"log"
	"runtime"
	"sync"
	"sync/atomic"

	"covetrivet"
)

const (
	orders = 200
	most   = 70
	// the words of a body
	number, quantity, price, shipped = 0, 1, 2, 3
)

func must(err error) {
	if err != nil {
		log.Fatal(err)
	}
}

func serve(me *covetrivet.Caller, stage uint8, closing *atomic.Bool) {
	for !closing.Load() {
		work, found, err := me.ClaimNext(stage)
		must(err)
		if !found {
			runtime.Gosched()
			continue
		}
		draft := covetrivet.Draft{Stage: stage + 1, Body: work.Element.Body}
		switch {
		case stage == 1:
			draft.Body[price] = draft.Body[quantity] * (10 + draft.Body[number]%5)
		case stage == 2 && draft.Body[price] > most:
			must(me.Abort())
			continue
		case stage == 3:
			draft.Stage, draft.Body[shipped] = covetrivet.Replies, 1
		}
		_, err = me.Commit(draft)
		must(err)
	}
}

func submitAndCollect(client *covetrivet.Caller) (done, declined int) {
	waiting := map[uint32]uint64{}
	for n := uint64(0); n < orders; n++ {
		root, err := client.Submit(1, covetrivet.Body{n, 1 + n%7})
		must(err)
		waiting[root] = n
	}
	for done+declined < orders {
		for root, n := range waiting {
			reply, found, err := client.CollectNext(root)
			must(err)
			if !found {
				continue
			}
			if reply.Body[number] != n || reply.Body[shipped] != 1 {
				log.Fatal("a reply to another order")
			}
			delete(waiting, root)
			done++
		}
		if id, found, err := client.NextError(0); err == nil && found {
			_, err = client.Kill(id)
			must(err)
			declined++
		}
		runtime.Gosched()
	}
	return done, declined
}

func main() {
	manager, err := covetrivet.Make(covetrivet.Limits{Parts: 4, Rows: 256, Units: 1024, Spare: 0, Attempts: 3})
	must(err)
	client, err := manager.Open()
	must(err)
	var closing atomic.Bool
	var group sync.WaitGroup
	for stage := uint8(1); stage <= 3; stage++ {
		me, err := manager.Open()
		must(err)
		group.Add(1)
		go func(stage uint8) {
			defer group.Done()
			serve(me, stage, &closing)
			must(me.Close())
		}(stage)
	}
	done, declined := submitAndCollect(client)
	closing.Store(true)
	group.Wait()
	must(client.Close())
	counts, err := manager.Account(0)
	must(err)
	fmt.Printf("%d orders: %d shipped, %d declined\n", orders, done, declined)
	fmt.Printf("waiting %d, held %d, consumed %d, parked %d, killed %d\n", counts.Waiting, counts.Held, counts.Consumed,
		counts.Parked, counts.Killed)
}
