package loop

import (
	"bytes"
	"context"
	"encoding/binary"
	"os"
	"strconv"
	"sync"
	"testing"
	"time"

	portals "ipcz_portals"
)

var background = context.Background()

func must(t *testing.T, err error) {
	t.Helper()
	if err != nil {
		t.Fatal(err)
	}
}

func refused(t *testing.T, err, why error) {
	t.Helper()
	if err != why {
		t.Fatalf("refused %v, not %v", err, why)
	}
}

// A loop of two nodes, and the portals of the pair that they share.
func two(t *testing.T) (loop *Loop, left, right *Portal) {
	t.Helper()
	loop, err := New(2)
	must(t, err)
	t.Cleanup(loop.Close)
	return loop, loop.Node(0).First(1), loop.Node(1).First(0)
}

func TestLimits(t *testing.T) {
	for _, nodes := range []int{0, 65} {
		_, err := New(nodes)
		refused(t, err, portals.TooMany)
	}
	_, err := NewWithSlots(8, 27)
	refused(t, err, portals.TooMany)
	full, err := NewWithSlots(8, 28)
	must(t, err)
	defer full.Close()
	_, _, err = full.Node(7).Open()
	refused(t, err, portals.NoWord)
	_, left, _ := two(t)
	refused(t, left.Send(make([]byte, 65537)), portals.TooMany)
}

func TestLooks(t *testing.T) {
	loop, left, right := two(t)
	kept, sent, err := loop.Node(0).Open()
	must(t, err)
	must(t, left.Send([]byte("carry"), sent))
	must(t, kept.Send([]byte("one")))
	seen, err := right.Look()
	must(t, err)
	if seen != (portals.Look{Waiting: 1, Size: 5, Count: 1}) {
		t.Fatalf("a look tells %v", seen)
	}
	came, err := right.TryRecv()
	must(t, err)
	arrived, err := came.Portals[0].HasArrived()
	must(t, err)
	must(t, kept.Close())
	seen, err = came.Portals[0].Look()
	must(t, err)
	if !arrived || seen != (portals.Look{Waiting: 1, Size: 3, PeerClosed: true}) {
		t.Fatalf("%v, and a look tells %v", arrived, seen)
	}
	_, err = sent.Look()
	refused(t, err, portals.Stranger)
}

func TestBytes(t *testing.T) {
	_, left, right := two(t)
	_, err := right.TryRecv()
	refused(t, err, portals.Empty)
	wide := bytes.Repeat([]byte("wide"), 16384)
	for _, sent := range [][]byte{nil, []byte("a\x00b"), wide} {
		must(t, left.Send(sent))
	}
	for number, sent := range [][]byte{nil, []byte("a\x00b"), wide} {
		came, err := right.Recv(background)
		must(t, err)
		if came.Number != uint64(number) || !bytes.Equal(came.Bytes, sent) {
			t.Fatalf("parcel %d has %d bytes", came.Number, len(came.Bytes))
		}
	}
}

func TestAContextEndsAWait(t *testing.T) {
	_, left, right := two(t)
	short, cancel := context.WithTimeout(background, 20*time.Millisecond)
	defer cancel()
	_, err := right.Recv(short)
	refused(t, err, context.DeadlineExceeded)
	must(t, left.Send([]byte("later")))
	came, err := right.Recv(background)
	must(t, err)
	if string(came.Bytes) != "later" {
		t.Fatal(string(came.Bytes))
	}
}

func TestPortals(t *testing.T) {
	loop, left, right := two(t)
	kept, sent, err := loop.Node(0).Open()
	must(t, err)
	refused(t, kept.Send(nil, sent), portals.PeerAttach)
	refused(t, right.Send(nil, sent), portals.Stranger)
	must(t, left.Send(nil, sent))
	refused(t, sent.Send(nil), portals.Stranger)
	parcel, err := right.Recv(background)
	must(t, err)
	came := parcel.Portals[0]
	must(t, kept.Send([]byte("here")))
	place, parcel, err := loop.Node(1).RecvAny(background, right, came)
	if err != nil || place != 1 || string(parcel.Bytes) != "here" {
		t.Fatal(place, parcel, err)
	}
	closed := make(chan error)
	go func() {
		_, err := kept.Recv(background)
		closed <- err
	}()
	time.Sleep(10 * time.Millisecond)
	must(t, came.Close())
	refused(t, <-closed, portals.PeerClosed)
	must(t, kept.Close())
	for _, list := range [][]*Portal{nil, {left}} {
		place, _, err = loop.Node(1).RecvAny(background, list...)
		refused(t, err, portals.Stranger)
		if place != -1 {
			t.Fatal(place)
		}
	}
}

func TestAClosedLoopEndsAllWaiting(t *testing.T) {
	loop, left, right := two(t)
	ended := make(chan error)
	go func() {
		_, err := right.Recv(background)
		ended <- err
	}()
	time.Sleep(10 * time.Millisecond)
	loop.Close()
	refused(t, <-ended, portals.Stopped)
	_, err := right.TryRecv()
	refused(t, err, portals.Stopped)
	refused(t, left.Send(nil), portals.Stopped)
	refused(t, left.Close(), portals.Stopped)
}

func TestParcels(t *testing.T) {
	_, left, right := two(t)
	go func() {
		for i := 0; i < 100; i++ {
			_ = left.Send([]byte{byte(i)})
		}
		_ = left.Close()
	}()
	count := 0
	for parcel := range right.Parcels(background) {
		if parcel.Bytes[0] != byte(count) {
			t.Fatal(parcel)
		}
		count++
	}
	if count != 100 {
		t.Fatal(count)
	}
}

// Answers each number at the portals that come, and hands each on to the next of the nodes 1 to 3 after some.
func host(n *Node) error {
	var all []*Portal
	heard := map[*Portal]int{}
	for other := 0; other < 4; other++ {
		if other != n.Number() {
			all = append(all, n.First(other))
		}
	}
	for {
		place, parcel, err := n.RecvAny(background, all...)
		gone := err == portals.PeerClosed && place >= 3
		switch {
		case err == portals.Stopped:
			return nil
		case gone:
		case err != nil:
			return err
		case place < 3:
			all = append(all, parcel.Portals...)
		default:
			if err := all[place].Send(parcel.Bytes); err != nil {
				return err
			}
			if heard[all[place]]++; heard[all[place]] == 7 {
				if err := n.First(n.Number()%3+1).Send(nil, all[place]); err != nil {
					return err
				}
				gone = true
			}
		}
		if gone {
			all = append(all[:place], all[place+1:]...)
		}
	}
}

func ask(n *Node, times int) error {
	kept, sent, err := n.Open()
	if err != nil {
		return err
	}
	if err := n.First(1).Send(nil, sent); err != nil {
		return err
	}
	for i := 0; i < times; i++ {
		number := binary.LittleEndian.AppendUint32(nil, uint32(i))
		if err := kept.Send(number); err != nil {
			return err
		}
		minute, cancel := context.WithTimeout(background, time.Minute)
		answer, err := kept.Recv(minute)
		cancel()
		if err != nil {
			return err
		}
		if !bytes.Equal(answer.Bytes, number) {
			return portals.BadData
		}
	}
	return kept.Close()
}

// IPCZ_STRESS sets how often each of eight goroutines asks.
func TestManySleepers(t *testing.T) {
	times, err := strconv.Atoi(os.Getenv("IPCZ_STRESS"))
	if err != nil {
		times = 250
	}
	loop, err := New(4)
	must(t, err)
	var hosts, asking sync.WaitGroup
	run := func(group *sync.WaitGroup, part func() error) {
		group.Add(1)
		go func() {
			defer group.Done()
			if err := part(); err != nil {
				t.Error(err)
			}
		}()
	}
	for i := 1; i < 4; i++ {
		node := loop.Node(i)
		run(&hosts, func() error { return host(node) })
	}
	for i := 0; i < 8; i++ {
		run(&asking, func() error { return ask(loop.Node(0), times) })
	}
	asking.Wait()
	loop.Close()
	hosts.Wait()
}
