package portals

/*
#include <ipcz_portals.h>
*/
import "C"

// A World is a number of nodes behind one handle. It isn't copied, as go vet tells; a copy is the same world, and once one of them is
// destroyed each call on the other is refused, too. The zero World has no nodes, and refuses each call.
type World struct {
	handle[C.ipcz_world]
}

// NewWorld makes a world of 1 to 64 nodes, and of at least a link word for each two of them and at most 4096; else TooMany.
func NewWorld(nodes uint8, words uint32) (*World, error) {
	world := new(World)
	if err := answer(C.ipcz_create(C.uint8_t(nodes), C.uint32_t(words), world.c())); err != nil {
		return nil, err
	}
	return world, nil
}

// Destroy frees the world with all that is in it. Each later call is refused NotCreated, or answers 0 or false; a second Destroy does nothing.
func (w *World) Destroy() {
	C.ipcz_destroy(w.c())
}

// Open opens a pair, whose portals are both the node's at first.
func (w *World) Open(node uint8) (first, second Portal, err error) {
	var a, b C.ipcz_portal
	err = answer(C.ipcz_open(w.c(), C.uint8_t(node), &a, &b))
	return fromC(a), fromC(b), err
}

// Put puts a parcel of at most 65,536 bytes, with at most 8 portals of the node, and answers how many were put at the portal before it.
func (w *World) Put(node uint8, at Portal, bytes []byte, portals ...Portal) (uint64, error) {
	var number C.uint64_t
	it := give(bytes, portals)
	status := C.ipcz_put_wide_parcel(w.c(), C.uint8_t(node), at.c(), (*C.uint8_t)(it.bytes), it.size, (*C.ipcz_portal)(it.portals), it.count, &number)
	return uint64(number), answer(status)
}

// PutPrinted puts a parcel of at most 256 bytes, each from 0x20 to 0x7E; of others it is refused TooMany or BadData.
func (w *World) PutPrinted(node uint8, at Portal, bytes []byte, portals ...Portal) (uint64, error) {
	var number C.uint64_t
	it := give(bytes, portals)
	status := C.ipcz_put_parcel(w.c(), C.uint8_t(node), at.c(), (*C.uint8_t)(it.bytes), it.size, (*C.ipcz_portal)(it.portals), it.count, &number)
	return uint64(number), answer(status)
}

// Get gets the next parcel that has come to a portal of the node; Empty if none has.
func (w *World) Get(node uint8, at Portal) (Parcel, error) {
	return gotBy(func(bytes *C.uint8_t, room C.size_t, size *C.size_t, portals *C.ipcz_portal, count *C.size_t, number *C.uint64_t) C.ipcz_status {
		return C.ipcz_get(w.c(), C.uint8_t(node), at.c(), bytes, room, size, portals, C.IPCZ_MAX_PORTALS, count, number)
	})
}

// Look tells what gets at a portal of the node would answer, one after the other. Nothing is taken.
func (w *World) Look(node uint8, at Portal) (Look, error) {
	var status C.ipcz_portal_status
	err := answer(C.ipcz_look(w.c(), C.uint8_t(node), at.c(), &status))
	return seen(status), err
}

// HasArrived tells whether a portal of the node has arrived, so that it leaves at most one router in its route if it travels on now.
func (w *World) HasArrived(node uint8, at Portal) (bool, error) {
	var arrived C.bool
	err := answer(C.ipcz_has_arrived(w.c(), C.uint8_t(node), at.c(), &arrived))
	return bool(arrived), err
}

// Ready lists the portals of a node at which a get would give a parcel, or tell that the peer has closed. Nothing is taken.
func (w *World) Ready(node uint8) []Portal {
	return allReady(func(from *C.uint64_t, at *C.ipcz_portal) C.ipcz_status {
		return C.ipcz_next_ready(w.c(), C.uint8_t(node), from, at)
	})
}

// Close closes a portal of the node.
func (w *World) Close(node uint8, at Portal) error {
	return answer(C.ipcz_close(w.c(), C.uint8_t(node), at.c()))
}

// Turn takes the node's first act that is possible, and tells whether it had one.
func (w *World) Turn(node uint8) (acted bool, err error) {
	var did C.bool
	err = answer(C.ipcz_act(w.c(), C.uint8_t(node), &did))
	return bool(did), err
}

// Settle has the nodes take turns until none has an act, or limit acts were taken: how many were, and whether no node has an act any more.
func (w *World) Settle(limit uint64) (acts uint64, quiet bool, err error) {
	var taken C.uint64_t
	var still C.bool
	err = answer(C.ipcz_settle(w.c(), C.uint64_t(limit), &taken, &still))
	return uint64(taken), bool(still), err
}

// Claimed tells how many link words were used.
func (w *World) Claimed() uint64 {
	return uint64(C.ipcz_claimed(w.c()))
}

// WordsLeft tells how many link words are left. If it is 0, an open is NoWord.
func (w *World) WordsLeft() uint64 {
	return uint64(C.ipcz_words_left(w.c()))
}

// AddWords makes so many link words more, of 8 bytes each, which are kept as long as the world: what a world that lasts is given before they are
// used up, say 1,000 wherever WordsLeft is below 64 before an open. OutOfMemory: there are as many as before. To add none is never refused.
func (w *World) AddWords(count uint64) error {
	return answer(C.ipcz_add_words(w.c(), C.uint64_t(count)))
}

// Retry lets each node that found no link word when a portal had moved on ask for one again, and tells how many there were. A node asks once by
// itself, and then stays in the portal's way; so call Retry behind AddWords, and then Settle. If it tells 0, nothing has changed.
func (w *World) Retry() uint64 {
	return uint64(C.ipcz_retry(w.c()))
}

// Word tells the number of a link word, and whether it was used.
func (w *World) Word(i uint64) (word uint64, used bool) {
	var number C.uint64_t
	used = bool(C.ipcz_word(w.c(), C.uint64_t(i), &number))
	return uint64(number), used
}

// Holder tells which node may use a portal now, and whether any may.
func (w *World) Holder(portal Portal) (node uint8, held bool) {
	var holder C.uint8_t
	held = bool(C.ipcz_holder(w.c(), portal.c(), &holder))
	return uint8(holder), held
}
