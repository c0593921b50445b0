package portals

import (
	"errors"
	"fmt"
	"runtime"
	"strconv"
	"sync/atomic"
	"testing"
)

const parcels = 100

// Takes turns of the node, and lets others run if it had none.
func serve(cell *Cell) error {
	acts, err := cell.Acts(64)
	if errors.Is(err, Raced) {
		return nil
	}
	if acts == 0 {
		runtime.Gosched()
	}
	return err
}

// Takes turns until a parcel has come, or the other goroutine has ended.
func await(cell *Cell, at Portal, ended *atomic.Bool) (Parcel, error) {
	for {
		parcel, err := cell.Get(at)
		if !errors.Is(err, Empty) || ended.Load() {
			return parcel, err
		}
		if err := serve(cell); err != nil {
			return parcel, err
		}
	}
}

// Node 0 sends a portal away and numbered parcels after it, and gets an answer.
func ask(cell *Cell, ended *atomic.Bool) (string, error) {
	kept, sent, err := cell.Open()
	if err == nil {
		_, err = cell.Put(left, nil, sent)
	}
	for i := 0; i < parcels && err == nil; i++ {
		if _, err = cell.Put(kept, []byte(strconv.Itoa(i))); err == nil {
			err = serve(cell)
		}
	}
	if err != nil {
		return "", err
	}
	answer, err := await(cell, kept, ended)
	return string(answer.Bytes), err
}

// Node 1 gets them, and answers.
func reply(cell *Cell, ended *atomic.Bool) error {
	first, err := await(cell, right, ended)
	if err != nil {
		return err
	}
	moved := first.Portals[0]
	for i := uint64(0); i < parcels; i++ {
		parcel, err := await(cell, moved, ended)
		if err != nil {
			return err
		}
		if parcel.Number != i || string(parcel.Bytes) != strconv.FormatUint(i, 10) {
			return fmt.Errorf("got %d: %q, not %d", parcel.Number, parcel.Bytes, i)
		}
	}
	if _, err := cell.Put(moved, []byte("all came")); err != nil {
		return err
	}
	for !ended.Load() {
		if err := serve(cell); err != nil {
			return err
		}
	}
	return nil
}

func newCells(t *testing.T, nodes int, words uint32) []*Cell {
	t.Helper()
	cells, err := NewCells(nodes, words)
	must(t, err)
	for _, cell := range cells {
		t.Cleanup(cell.Destroy)
	}
	return cells
}

func TestTwoGoroutinesOwnANodeEach(t *testing.T) {
	cells := newCells(t, 2, 8)
	for i, cell := range cells {
		if node, there := cell.Node(); !there || node != uint8(i) {
			t.Fatalf("cell %d is of node %d", i, node)
		}
	}
	var asked, replied atomic.Bool
	done := make(chan error)
	go func() {
		err := reply(cells[1], &asked)
		replied.Store(true)
		done <- err
	}()
	answer, err := ask(cells[0], &replied)
	asked.Store(true)
	must(t, <-done)
	must(t, err)
	if answer != "all came" {
		t.Fatalf("answered %q", answer)
	}
}

func TestCallsOfACellAreRefused(t *testing.T) {
	for _, wrong := range []struct {
		nodes int
		words uint32
	}{{-1, 8}, {0, 8}, {65, 4096}, {3, 2}, {2, 4097}, {300, 4096}} {
		_, err := NewCells(wrong.nodes, wrong.words)
		refused(t, err, TooMany)
	}
	cell := newCells(t, 2, 1)[0]
	_, _, err := cell.Open()
	refused(t, err, NoWord)
	_, err = cell.Put(right, []byte("x"))
	refused(t, err, Stranger)
	_, err = cell.PutPrinted(left, []byte("\n"))
	refused(t, err, BadData)
	_, err = cell.Put(left, []byte("\n"))
	must(t, err)
	_, err = cell.Put(left, []byte("x"), left)
	refused(t, err, SelfAttach)
	if !cell.Holds(left) || cell.Holds(right) || cell.Claimed() != 1 || cell.Quiet() {
		t.Fatal("the cell tells something else")
	}
	must(t, cell.Close(left))
	refused(t, cell.Close(left), Stranger)
	_, err = cell.Get(left)
	refused(t, err, Stranger)
}

func TestADestroyedCellRefuses(t *testing.T) {
	cell := newCells(t, 2, 1)[0]
	cell.Destroy()
	_, err := cell.Acts(1)
	refused(t, err, NotCreated)
	if _, there := cell.Node(); there {
		t.Fatal("there is a node")
	}
	cell.Destroy()
	var none Cell
	refused(t, none.Close(left), NotCreated)
	none.Destroy()
}

// Has both nodes take turns until neither has any.
func rest(cells []*Cell) error {
	for {
		var all uint64
		for _, cell := range cells {
			acts, err := cell.Acts(1000)
			if err != nil {
				return err
			}
			all += acts
		}
		if all == 0 {
			return nil
		}
	}
}

// Node 0 asks node 1, which answers at the portal that came with the question.
func request(t *testing.T, cells []*Cell) {
	t.Helper()
	kept, sent, err := cells[0].Open()
	if err == nil {
		_, err = cells[0].Put(left, []byte("well?"), sent)
	}
	if err == nil {
		err = rest(cells)
	}
	if err != nil {
		t.Fatal(err)
	}
	asked, err := cells[1].Get(right)
	if err != nil || len(asked.Portals) != 1 {
		t.Fatal(asked, err)
	}
	if _, err = cells[1].Put(asked.Portals[0], []byte("yes")); err == nil {
		err = cells[1].Close(asked.Portals[0])
	}
	if err == nil {
		err = rest(cells)
	}
	if err != nil {
		t.Fatal(err)
	}
	answer, err := cells[0].Get(kept)
	if err == nil {
		err = cells[0].Close(kept)
	}
	if err == nil {
		err = rest(cells)
	}
	if err != nil || string(answer.Bytes) != "yes" {
		t.Fatal(answer, err)
	}
}

func TestLinkWordsComeBack(t *testing.T) {
	for _, slots := range []uint32{0, 1048577} {
		if _, err := NewLastingCells(2, slots); !errors.Is(err, TooMany) {
			t.Error(slots, err)
		}
	}
	cells, err := NewLastingCells(2, 3)
	if err != nil {
		t.Fatal(err)
	}
	for i := 0; i < parcels; i++ {
		request(t, cells)
	}
	if claimed := cells[0].Claimed(); claimed <= 2*parcels {
		t.Error(claimed)
	}
	for _, cell := range cells {
		cell.Destroy()
	}
}
