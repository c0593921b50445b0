// SPDX-License-Identifier: BSD-3-Clause

// Package portals is Go over the static library ipcz_portals, by cgo: nodes that exchange parcels through portals, all of them in a World,
// or each in a Cell of its own, which a goroutine that owns it calls without a lock.
//
// Some of what the library asks of its callers (ipcz_portals.h, "What the caller upholds") is kept here: there is one handle of a world or a
// cell, which is never copied, no pointer is null, and slices have their lengths. The rest is the program's: calls on one World, and on one Cell, come one at a time, in an order
// that a mutex, a channel or a sequentially consistent atomic gives them.
package portals

/*
#cgo pkg-config: ipcz_portals
#include <ipcz_portals.h>
*/
import "C"

import "unsafe"

// Version is the library's, by its header.
const Version = C.IPCZ_VERSION

// By its methods go vet tells where a value that has one is copied.
type noCopy struct{}

func (*noCopy) Lock()   {}
func (*noCopy) Unlock() {}

// A handle of the library, all zeros at first, at one place for its whole life.
type handle[T any] struct {
	_  noCopy
	at *T
}

func (h *handle[T]) c() *T {
	if h.at == nil {
		h.at = new(T)
	}
	return h.at
}

// Status tells why a call was refused. A call that is refused changes nothing, but for a Settle or Acts: the acts before the refused one
// stand.
type Status uint32

// The statuses that these calls answer. A nil error stands for IPCZ_OK.
const (
	OutOfMemory    Status = C.IPCZ_OUT_OF_MEMORY
	Empty          Status = C.IPCZ_EMPTY
	PeerClosed     Status = C.IPCZ_PEER_CLOSED
	NoWord         Status = C.IPCZ_NO_WORD
	SelfAttach     Status = C.IPCZ_SELF_ATTACH
	PeerAttach     Status = C.IPCZ_PEER_ATTACH
	Stranger       Status = C.IPCZ_STRANGER
	NumbersEnd     Status = C.IPCZ_NUMBERS_END
	BadData        Status = C.IPCZ_BAD_DATA
	TooMany        Status = C.IPCZ_TOO_MANY
	Raced          Status = C.IPCZ_RACED
	NotCreated     Status = C.IPCZ_NOT_CREATED
	AlreadyCreated Status = C.IPCZ_ALREADY_CREATED
	Stopped        Status = C.IPCZ_STOPPED // only of package loop
)

func (s Status) Error() string {
	return C.GoString(C.ipcz_status_name(C.ipcz_status(s)))
}

func answer(status C.ipcz_status) error {
	if status == C.IPCZ_OK {
		return nil
	}
	return Status(status)
}

// A Portal is an end of a pair, of side A or B. It is a name, and may be copied and compared; which node may use it is kept by the nodes.
type Portal struct {
	Pair  uint64
	SideB bool
}

func (p Portal) c() C.ipcz_portal {
	return C.ipcz_portal{pair: C.uint64_t(p.Pair), side_b: C.bool(p.SideB)}
}

func fromC(p C.ipcz_portal) Portal {
	return Portal{Pair: uint64(p.pair), SideB: bool(p.side_b)}
}

// allReady lists each portal that such calls tell, one after the other.
func allReady(next func(*C.uint64_t, *C.ipcz_portal) C.ipcz_status) []Portal {
	var all []Portal
	var from C.uint64_t
	var at C.ipcz_portal
	for next(&from, &at) == C.IPCZ_OK {
		all = append(all, fromC(at))
	}
	return all
}

// A Look is what a look at a portal tells: what gets there would answer, one after the other.
type Look struct {
	Next       uint64 // the number that the next parcel has, whether it has come or not
	Waiting    uint64 // how many gets would give a parcel each; a parcel before which another one lacks isn't counted
	Size       int    // how many bytes the next parcel has; 0 if none waits
	Count      int    // how many portals it has; 0 if none waits
	PeerClosed bool   // whether the get after these would be refused PeerClosed; if not, it would be refused Empty
}

func seen(s C.ipcz_portal_status) Look {
	return Look{Next: uint64(s.next), Waiting: uint64(s.waiting), Size: int(s.size), Count: int(s.count), PeerClosed: bool(s.peer_closed)}
}

// First is the portal that a node has from the start of the pair that it shares with another; both are below nodes, and not the same.
func First(node, other, nodes uint8) Portal {
	return fromC(C.ipcz_first(C.uint8_t(node), C.uint8_t(other), C.uint8_t(nodes)))
}

// A Parcel is what was got at a portal: how many parcels were got there before it, its bytes, and its portals, which are the node's now.
type Parcel struct {
	Number  uint64
	Bytes   []byte
	Portals []Portal
}

// What a put is given, as C wants it. The lists have a place more than is used, so that there is a first one to point to.
type given struct {
	bytes, portals unsafe.Pointer
	size, count    C.size_t
}

func give(bytes []byte, portals []Portal) given {
	list := make([]C.ipcz_portal, len(portals)+1)
	for i, portal := range portals {
		list[i] = portal.c()
	}
	size := len(bytes)
	if size == 0 {
		bytes = []byte{0}
	}
	return given{unsafe.Pointer(&bytes[0]), unsafe.Pointer(&list[0]), C.size_t(size), C.size_t(len(portals))}
}

// A call of C that gets a parcel into the room that it is given.
type getter func(bytes *C.uint8_t, room C.size_t, size *C.size_t, portals *C.ipcz_portal, count *C.size_t, number *C.uint64_t) C.ipcz_status

// The parcel that a call gets, which is given the room that it wants.
func gotBy(get getter) (Parcel, error) {
	var list [C.IPCZ_MAX_PORTALS]C.ipcz_portal
	var size, count C.size_t
	var number C.uint64_t
	room := make([]byte, C.IPCZ_MAX_PRINTED_BYTES)
	status := get((*C.uint8_t)(&room[0]), C.size_t(len(room)), &size, &list[0], &count, &number)
	if status == C.IPCZ_TOO_SMALL {
		room = make([]byte, size)
		status = get((*C.uint8_t)(&room[0]), C.size_t(len(room)), &size, &list[0], &count, &number)
	}
	if err := answer(status); err != nil {
		return Parcel{}, err
	}
	portals := make([]Portal, count)
	for i := range portals {
		portals[i] = fromC(list[i])
	}
	return Parcel{uint64(number), room[:size], portals}, nil
}
