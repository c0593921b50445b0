// SPDX-License-Identifier: BSD-3-Clause

// Package loop has nodes that goroutines share, and portals that wait until a parcel comes.
//
// A Loop is a table of nodes whose link words come back (portals.NewLastingCells), with a lock for each node. Any goroutine may call any node and portal at
// any time. No goroutine has to serve a node: who sends takes the turns that bring the parcel to its portal, those of the other nodes too, and hands it to the
// goroutine that waits there. So a parcel wakes one goroutine, and nothing runs between calls.
//
// The archive below is proved; this package isn't. It is tested.
package loop

import (
	"context"
	"fmt"
	"math/bits"
	"sync"
	"sync/atomic"

	portals "ipcz_portals"
)

// Slots tells for how many links at once there is room in a loop that New makes.
const Slots = 4096

// A call of a cell takes so many turns at most, and a call of a loop so many looks at nodes: portals that chase each other in a circle don't hold it for ever.
const (
	mostTurns = 1 << 10
	mostLooks = 1 << 14
	// Once in so many calls on a node all nodes are asked, and the routers that were told that there is no slot ask again.
	retryAfter = 256
)

// A Loop is a number of nodes.
type Loop struct {
	nodes []*Node
	// Nodes that may still have turns, by their bits; read and written by atomics.
	left uint64
}

// A Node is a node of a loop.
type Node struct {
	loop   *Loop
	number int
	// Guards all below. No goroutine holds the locks of two nodes.
	lock    sync.Mutex
	cell    *portals.Cell
	waiting []*waiter
	// How many calls it had.
	calls uint32
	// Why a turn of some node was refused, if one was since this node took turns.
	refused error
	stopped bool
}

// A Parcel is what was received at a portal: how many parcels were received there before it, its bytes, and the portals that came with it.
type Parcel struct {
	Number  uint64
	Bytes   []byte
	Portals []*Portal
}

// What a receive came to: at which place of the list of portals, and the parcel or a refusal.
type answer struct {
	place  int
	parcel portals.Parcel
	err    error
}

// A goroutine that waits.
type waiter struct {
	at   []portals.Portal
	came chan answer
}

// New makes a loop of 1 to 64 nodes, with room for Slots links at once; else TooMany.
func New(nodes int) (*Loop, error) {
	return NewWithSlots(nodes, Slots)
}

// NewWithSlots makes a loop with room for so many links, as for portals.NewLastingCells.
func NewWithSlots(nodes int, slots uint32) (*Loop, error) {
	cells, err := portals.NewLastingCells(nodes, slots)
	if err != nil {
		return nil, err
	}
	made := new(Loop)
	for number, cell := range cells {
		made.nodes = append(made.nodes, &Node{loop: made, number: number, cell: cell})
	}
	return made, nil
}

// Node is a node by its number. It panics if there is none.
func (l *Loop) Node(number int) *Node {
	return l.nodes[number]
}

// Close ends all waiting, and frees the loop with all that is in it. What waits, and each later call, is refused Stopped or NotCreated.
func (l *Loop) Close() {
	l.each(func(n *Node) {
		n.stopped = true
		n.cell.Destroy()
	})
}

// Changes each node, and tells whoever waits there.
func (l *Loop) each(change func(n *Node)) {
	for _, n := range l.nodes {
		n.lock.Lock()
		change(n)
		n.handOut()
		n.lock.Unlock()
	}
}

// The bits of all nodes.
func (l *Loop) all() uint64 {
	return ^uint64(0) >> (64 - len(l.nodes))
}

// The first node of a set behind another, going round. The set has one.
func firstBehind(set uint64, i int) int {
	if later := set &^ (^uint64(0) >> (63 - i)); later != 0 {
		set = later
	}
	return bits.TrailingZeros64(set)
}

// What follows turns of a node: the nodes that are asked take theirs, and those that these touch, until there is none left to ask. A turn becomes possible at a node
// only by a call on it, or by a turn that touches it: one that sent it a message, or took one of it. So whoever is touched looks once more, and no parcel stays
// behind. A node whose turn was refused is asked again in the next call that moves anything.
func (l *Loop) moveOn(from int, asked uint64, retries bool, refused error) {
	var left uint64
	if refused != nil {
		left = 1 << from
	}
	asked &^= 1 << from
	asked |= atomic.SwapUint64(&l.left, 0)
	i := from
	for look := 0; asked != 0 && look < mostLooks; look++ {
		i = firstBehind(asked, i)
		n := l.nodes[i]
		n.lock.Lock()
		_, touched := n.turns(false, retries)
		if n.refused != nil {
			refused = n.refused
			left |= 1 << i
		}
		n.lock.Unlock()
		asked = (asked | touched) &^ (1 << i)
	}
	l.askLater(left | asked)
	if refused != nil {
		l.each(func(n *Node) { n.refused = refused })
	}
}

// Leaves nodes that may still have turns to the next call that moves anything.
func (l *Loop) askLater(nodes uint64) {
	for {
		old := atomic.LoadUint64(&l.left)
		if nodes&^old == 0 || atomic.CompareAndSwapUint64(&l.left, old, old|nodes) {
			return
		}
	}
}

// What has come to the first of some portals that has something, or why nobody shall wait; whether there is either.
func (n *Node) look(at []portals.Portal) (answer, bool) {
	for place, portal := range at {
		parcel, err := n.cell.Get(portal)
		switch {
		case err == portals.NotCreated && n.stopped:
			return answer{place, parcel, portals.Stopped}, true
		case err != portals.Empty:
			return answer{place, parcel, err}, true
		}
	}
	return answer{0, portals.Parcel{}, n.refused}, n.refused != nil
}

// Gives each goroutine that waits what has come for it; whether there was one. A parcel comes only by a call or a turn under the node's lock, and who wants to wait
// looks and goes into the list under it: so none waits on.
func (n *Node) handOut() bool {
	waiting := n.waiting[:0]
	given := false
	for _, w := range n.waiting {
		if found, ok := n.look(w.at); ok {
			w.came <- found
			given = true
		} else {
			waiting = append(waiting, w)
		}
	}
	for i := len(waiting); i < len(n.waiting); i++ {
		n.waiting[i] = nil
	}
	n.waiting = waiting
	return given
}

// Takes turns until the node has none, or one is refused, and hands out what has come; whether it had one, and which nodes they touched. It may be asked to let
// routers that were told that there is no slot for their shorter way ask again.
func (n *Node) turns(called, retries bool) (had bool, touched uint64) {
	for {
		acts, nodes, err := n.cell.ActsTouching(mostTurns)
		touched |= nodes
		// (of acts that were refused those before stand)
		had = had || acts > 0 || err != nil && err != portals.NotCreated
		if err == portals.Raced || acts == mostTurns || err == nil && retries && n.cell.Retry() == portals.Again {
			continue
		}
		n.refused = err
		if err == portals.NotCreated {
			n.refused = nil
		}
		if !had && !called || !n.handOut() || n.refused != nil {
			return had, touched
		}
	}
}

// Makes a call, and takes the turns that follow it.
func (n *Node) call(call func() error) error {
	n.lock.Lock()
	err := call()
	n.endCall()
	if err == portals.NotCreated {
		return portals.Stopped
	}
	return err
}

// Looks at the node, and changes nothing.
func (n *Node) lookAt(look func() error) error {
	n.beginLook()
	defer n.lock.Unlock()
	if err := look(); err != portals.NotCreated {
		return err
	}
	return portals.Stopped
}

func (n *Node) endCall() {
	n.calls++
	retries := n.calls%retryAfter == 1
	had, touched := n.turns(true, retries)
	refused := n.refused
	n.lock.Unlock()
	if retries {
		touched = n.loop.all()
	}
	if had || retries {
		n.loop.moveOn(n.number, touched, retries, refused)
	}
}

// Takes the lock before a look. If a turn of any node was refused, all take turns first.
func (n *Node) beginLook() {
	n.lock.Lock()
	if n.refused == nil {
		return
	}
	n.turns(false, false)
	refused := n.refused
	n.lock.Unlock()
	n.loop.moveOn(n.number, n.loop.all(), false, refused)
	n.lock.Lock()
}

// What comes first at some portals; without a context it doesn't wait.
func (n *Node) receive(ctx context.Context, at []portals.Portal) answer {
	n.beginLook()
	if found, ok := n.look(at); ok {
		n.endCall()
		return found
	}
	if ctx == nil {
		n.lock.Unlock()
		return answer{err: portals.Empty}
	}
	me := &waiter{at, make(chan answer, 1)}
	n.waiting = append(n.waiting, me)
	n.lock.Unlock()
	select {
	case found := <-me.came:
		return found
	case <-ctx.Done():
		return n.leave(me, ctx.Err())
	}
}

// Waits no longer, but takes what came meanwhile.
func (n *Node) leave(me *waiter, why error) answer {
	n.lock.Lock()
	defer n.lock.Unlock()
	for i, w := range n.waiting {
		if w == me {
			n.waiting = append(n.waiting[:i], n.waiting[i+1:]...)
			return answer{err: why}
		}
	}
	return <-me.came
}

func (n *Node) received(found answer) (Parcel, error) {
	if found.err != nil {
		return Parcel{}, found.err
	}
	parcel := Parcel{Number: found.parcel.Number, Bytes: found.parcel.Bytes}
	for _, name := range found.parcel.Portals {
		parcel.Portals = append(parcel.Portals, &Portal{n, name})
	}
	return parcel, nil
}

// Number is the node's number.
func (n *Node) Number() int {
	return n.number
}

// First is the portal that the node has from the start of the pair that it shares with another. It panics if there is no such pair.
func (n *Node) First(other int) *Portal {
	if other < 0 || other >= len(n.loop.nodes) || other == n.number {
		panic(fmt.Sprintf("node %d has no pair with %d", n.number, other))
	}
	return &Portal{n, portals.First(uint8(n.number), uint8(other), uint8(len(n.loop.nodes)))}
}

// Open opens a pair, both portals of which are this node's. NoWord if no slot is free at the moment.
func (n *Node) Open() (first, second *Portal, err error) {
	var a, b portals.Portal
	err = n.call(func() (err error) {
		a, b, err = n.cell.Open()
		return err
	})
	if err != nil {
		return nil, nil, err
	}
	return &Portal{n, a}, &Portal{n, b}, nil
}

// RecvAny receives at the first of some portals of this node at which there is something, and tells its place in the list. An error with a place from 0 on is of that
// portal; with -1, of none: the context's, Stopped, or Stranger if there is no portal in the list, or one of another node.
func (n *Node) RecvAny(ctx context.Context, list ...*Portal) (place int, parcel Parcel, err error) {
	var at []portals.Portal
	for _, portal := range list {
		if portal.node != n {
			return -1, Parcel{}, portals.Stranger
		}
		at = append(at, portal.name)
	}
	if len(at) == 0 {
		return -1, Parcel{}, portals.Stranger
	}
	found := n.receive(ctx, at)
	switch found.err {
	case nil, portals.PeerClosed, portals.Stranger:
	default:
		return -1, Parcel{}, found.err
	}
	parcel, err = n.received(found)
	return found.place, parcel, err
}
