package portals

import (
	"bytes"
	"reflect"
	"strconv"
	"sync"
	"testing"
)

var left, right = First(0, 1, 2), First(1, 0, 2)

func must(t *testing.T, err error) {
	t.Helper()
	if err != nil {
		t.Fatal(err)
	}
}

func refused(t *testing.T, err error, why Status) {
	t.Helper()
	if err != why {
		t.Fatalf("refused %v, not %v", err, why)
	}
}

func newWorld(t *testing.T, nodes uint8, words uint32) *World {
	t.Helper()
	world, err := NewWorld(nodes, words)
	must(t, err)
	t.Cleanup(world.Destroy)
	return world
}

func settle(t *testing.T, world *World) {
	t.Helper()
	_, quiet, err := world.Settle(1000)
	must(t, err)
	if !quiet {
		t.Fatal("not quiet after 1000 acts")
	}
}

func put(t *testing.T, world *World, node uint8, at Portal, text string, portals ...Portal) {
	t.Helper()
	_, err := world.Put(node, at, []byte(text), portals...)
	must(t, err)
}

func wants(t *testing.T, got Parcel, number uint64, text string) {
	t.Helper()
	if got.Number != number || string(got.Bytes) != text {
		t.Fatalf("got %d: %q, not %d: %q", got.Number, got.Bytes, number, text)
	}
}

func TestAPortalTravels(t *testing.T) {
	world := newWorld(t, 2, 8)
	kept, sent, err := world.Open(0)
	must(t, err)
	put(t, world, 0, left, "a portal", sent)
	_, err = world.Get(1, right)
	refused(t, err, Empty)
	settle(t, world)
	if ready := world.Ready(1); len(ready) != 1 || ready[0] != right {
		t.Fatalf("%v are ready, not %v", ready, right)
	}
	seen, err := world.Look(1, right)
	must(t, err)
	if want := (Look{Next: 0, Waiting: 1, Size: 8, Count: 1}); seen != want {
		t.Fatalf("a look tells %v, not %v", seen, want)
	}
	got, err := world.Get(1, right)
	must(t, err)
	wants(t, got, 0, "a portal")
	if len(got.Portals) != 1 || got.Portals[0] != sent {
		t.Fatalf("came with %v, not %v", got.Portals, sent)
	}
	arrived, err := world.HasArrived(1, sent)
	must(t, err)
	if !arrived {
		t.Fatal("it hasn't arrived, with words left and nothing to do")
	}
	for portal, node := range map[Portal]uint8{kept: 0, sent: 1} {
		if holder, held := world.Holder(portal); !held || holder != node {
			t.Fatalf("%v is held by %d, not %d", portal, holder, node)
		}
	}
	put(t, world, 0, kept, "over it")
	for turn := 0; turn < 20; turn++ {
		_, err := world.Turn(uint8(turn % 2))
		must(t, err)
	}
	got, err = world.Get(1, sent)
	must(t, err)
	wants(t, got, 0, "over it")
	must(t, world.Close(0, kept))
	refused(t, world.Close(0, kept), Stranger)
	settle(t, world)
	_, err = world.Get(1, sent)
	refused(t, err, PeerClosed)
}

func TestLimitsAreRefused(t *testing.T) {
	for _, wrong := range []struct {
		nodes uint8
		words uint32
	}{{0, 8}, {65, 4096}, {3, 2}, {2, 4097}} {
		_, err := NewWorld(wrong.nodes, wrong.words)
		refused(t, err, TooMany)
	}
	world := newWorld(t, 2, 1)
	_, _, err := world.Open(0)
	refused(t, err, NoWord)
	_, err = world.PutPrinted(0, left, make([]byte, 257))
	refused(t, err, TooMany)
	_, err = world.PutPrinted(0, left, []byte("\n"))
	refused(t, err, BadData)
	_, err = world.Put(0, left, nil, left)
	refused(t, err, SelfAttach)
	_, err = world.Put(0, left, nil, right)
	refused(t, err, PeerAttach)
	_, err = world.Turn(2)
	refused(t, err, Stranger)
	if claimed := world.Claimed(); claimed != 1 {
		t.Fatalf("%d words are claimed, not 1", claimed)
	}
}

func TestWordsAreAdded(t *testing.T) {
	world := newWorld(t, 2, 1)
	must(t, world.AddWords(0))
	refused(t, world.AddWords(1<<64-1), OutOfMemory)
	_, _, err := world.Open(0)
	refused(t, err, NoWord)
	must(t, world.AddWords(5000))
	for opened := uint64(0); opened < 5000; opened++ {
		if words := world.WordsLeft(); words != 5000-opened {
			t.Fatalf("%d words are left behind %d opens", words, opened)
		}
		_, _, err := world.Open(0)
		must(t, err)
	}
	_, _, err = world.Open(0)
	refused(t, err, NoWord)
}

func TestANodeWithoutAWordAsksAgain(t *testing.T) {
	world := newWorld(t, 2, 2)
	_, sent, err := world.Open(0)
	must(t, err)
	_, err = world.Put(0, First(0, 1, 2), []byte("m"), sent)
	must(t, err)
	_, _, err = world.Settle(1000)
	must(t, err)
	must(t, world.AddWords(1))
	if asked, again := world.Retry(), world.Retry(); asked != 1 || again != 0 {
		t.Fatalf("%d nodes ask, and then %d", asked, again)
	}
	_, _, err = world.Settle(1000)
	must(t, err)
	if claimed := world.Claimed(); claimed != 3 {
		t.Fatalf("%d words are claimed, not 3", claimed)
	}
}

func TestParcelsHaveAnyBytes(t *testing.T) {
	world := newWorld(t, 2, 1)
	wide := make([]byte, 65_536)
	for i := range wide {
		wide[i] = byte(i)
	}
	_, err := world.Put(0, left, wide)
	must(t, err)
	_, err = world.Put(0, left, append(wide, 0))
	refused(t, err, TooMany)
	settle(t, world)
	got, err := world.Get(1, right)
	must(t, err)
	if !bytes.Equal(got.Bytes, wide) {
		t.Fatal("other bytes came")
	}
}

func TestFirstPortalsAreTheirNodes(t *testing.T) {
	world := newWorld(t, 8, 28)
	for node := uint8(0); node < 8; node++ {
		for other := uint8(0); other < 8; other++ {
			if holder, held := world.Holder(First(node, other, 8)); node != other && (!held || holder != node) {
				t.Fatalf("the portal of %d to %d is held by %d", node, other, holder)
			}
		}
	}
}

func TestADestroyedWorldRefuses(t *testing.T) {
	world := newWorld(t, 2, 1)
	world.Destroy()
	_, err := world.Get(1, right)
	refused(t, err, NotCreated)
	if err.Error() != "NotCreated" || world.Claimed() != 0 {
		t.Fatalf("%v, %d words", err, world.Claimed())
	}
	world.Destroy()
	var none World
	refused(t, none.Close(0, left), NotCreated)
	none.Destroy()
}

func TestACopyIsTheSameWorld(t *testing.T) {
	world := newWorld(t, 2, 1)
	// (a plain copy is what go vet tells of)
	copied := reflect.New(reflect.TypeOf(world).Elem())
	copied.Elem().Set(reflect.ValueOf(world).Elem())
	other := copied.Interface().(*World)
	if word, used := other.Word(0); !used || word != 3 {
		t.Fatalf("the first word is %d", word)
	}
	other.Destroy()
	world.Destroy()
	_, err := world.Turn(0)
	refused(t, err, NotCreated)
}

func TestAWorldIsSharedByAMutex(t *testing.T) {
	const parcels = 200
	world := newWorld(t, 2, 1)
	var lock sync.Mutex
	failed := make(chan error, 1)
	go func() {
		for i := 0; i < parcels; i++ {
			lock.Lock()
			_, err := world.Put(0, left, []byte(strconv.Itoa(i)))
			if err == nil {
				_, _, err = world.Settle(1000)
			}
			lock.Unlock()
			if err != nil {
				failed <- err
				return
			}
		}
		failed <- nil
	}()
	for got := uint64(0); got < parcels; {
		lock.Lock()
		parcel, err := world.Get(1, right)
		lock.Unlock()
		if err == nil {
			wants(t, parcel, got, strconv.FormatUint(got, 10))
			got++
			continue
		}
		refused(t, err, Empty)
	}
	must(t, <-failed)
}
