package portals

/*
#include <ipcz_portals.h>
*/
import "C"

// A Cell is a node behind a handle of its own. Calls on different cells, also of one table, may come from different goroutines at once. It
// isn't copied, as go vet tells; a copy is the same cell. The zero Cell has no node, and refuses each call.
type Cell struct {
	handle[C.ipcz_cell]
}

// NewCells makes the cells of a new table, by node: of 1 to 64 nodes, and of at least a link word for each two of them and at most 4096; else
// TooMany.
func NewCells(nodes int, words uint32) ([]*Cell, error) {
	return makeCells(nodes, func(handles *C.ipcz_cell, count C.size_t) C.ipcz_status {
		return C.ipcz_cells_create(C.uint32_t(words), handles, count)
	})
}

// NewLastingCells makes the cells of a new table whose link words come back, by node: what a program that stays up takes. There is room for so
// many links at once, at least 1 and one for each two nodes, and at most 1,048,576; else TooMany. A link's slot is used again once both nodes
// have let it go, as they take turns; if none is to be had, an open is refused NoWord and may be tried again. Numbers of links have 64
// bits.
func NewLastingCells(nodes int, slots uint32) ([]*Cell, error) {
	return makeCells(nodes, func(handles *C.ipcz_cell, count C.size_t) C.ipcz_status {
		return C.ipcz_cells_create_lasting(C.uint32_t(slots), handles, count)
	})
}

func makeCells(nodes int, create func(*C.ipcz_cell, C.size_t) C.ipcz_status) ([]*Cell, error) {
	if nodes < 0 {
		return nil, TooMany
	}
	handles := make([]C.ipcz_cell, nodes+1)
	if err := answer(create(&handles[0], C.size_t(nodes))); err != nil {
		return nil, err
	}
	cells := make([]*Cell, nodes)
	for i := range cells {
		cells[i] = new(Cell)
		*cells[i].c() = handles[i]
	}
	return cells, nil
}

// Destroy frees what only this cell has, and with the last cell of the table, the table. Each later call is refused NotCreated, or answers 0
// or false; a second Destroy does nothing.
func (c *Cell) Destroy() {
	C.ipcz_cell_destroy(c.c())
}

// Open opens a pair, whose portals are both the node's at first. It is tried again if another thread came between.
func (c *Cell) Open() (first, second Portal, err error) {
	var a, b C.ipcz_portal
	status := C.ipcz_cell_open(c.c(), &a, &b)
	for status == C.IPCZ_RACED {
		status = C.ipcz_cell_open(c.c(), &a, &b)
	}
	return fromC(a), fromC(b), answer(status)
}

// Put puts a parcel of at most 65,536 bytes, with at most 8 portals of the node, and answers how many were put at the portal before it.
func (c *Cell) Put(at Portal, bytes []byte, portals ...Portal) (uint64, error) {
	var number C.uint64_t
	it := give(bytes, portals)
	status := C.ipcz_cell_put_wide_parcel(c.c(), at.c(), (*C.uint8_t)(it.bytes), it.size, (*C.ipcz_portal)(it.portals), it.count, &number)
	return uint64(number), answer(status)
}

// PutPrinted puts a parcel of at most 256 bytes, each from 0x20 to 0x7E; of others it is refused TooMany or BadData.
func (c *Cell) PutPrinted(at Portal, bytes []byte, portals ...Portal) (uint64, error) {
	var number C.uint64_t
	it := give(bytes, portals)
	status := C.ipcz_cell_put_parcel(c.c(), at.c(), (*C.uint8_t)(it.bytes), it.size, (*C.ipcz_portal)(it.portals), it.count, &number)
	return uint64(number), answer(status)
}

// Get gets the next parcel that has come to a portal of the node; Empty if none has.
func (c *Cell) Get(at Portal) (Parcel, error) {
	return gotBy(func(bytes *C.uint8_t, room C.size_t, size *C.size_t, portals *C.ipcz_portal, count *C.size_t, number *C.uint64_t) C.ipcz_status {
		return C.ipcz_cell_get(c.c(), at.c(), bytes, room, size, portals, C.IPCZ_MAX_PORTALS, count, number)
	})
}

// Look tells what gets at a portal of the node would answer, one after the other. Nothing is taken.
func (c *Cell) Look(at Portal) (Look, error) {
	var status C.ipcz_portal_status
	err := answer(C.ipcz_cell_look(c.c(), at.c(), &status))
	return seen(status), err
}

// HasArrived tells whether a portal of the node has arrived, so that it leaves at most one router in its route if it travels on now.
func (c *Cell) HasArrived(at Portal) (bool, error) {
	var arrived C.bool
	err := answer(C.ipcz_cell_has_arrived(c.c(), at.c(), &arrived))
	return bool(arrived), err
}

// Ready lists the portals of the node at which a get would give a parcel, or tell that the peer has closed. Nothing is taken.
func (c *Cell) Ready() []Portal {
	return allReady(func(from *C.uint64_t, at *C.ipcz_portal) C.ipcz_status {
		return C.ipcz_cell_next_ready(c.c(), from, at)
	})
}

// Close closes a portal of the node.
func (c *Cell) Close(at Portal) error {
	return answer(C.ipcz_cell_close(c.c(), at.c()))
}

// Acts takes turns of the node until it has no act, or limit acts were taken: how many. Raced: another thread was there first; call again.
func (c *Cell) Acts(limit uint64) (uint64, error) {
	acts, _, err := c.ActsTouching(limit)
	return acts, err
}

// ActsTouching is the same, and also tells which nodes the acts have touched: bit n is set if a message was sent to node n, or one of node n was taken, so that
// it can send its next. Only at these nodes can a turn have become possible. Of acts that end at a refusal it tells what those before have touched.
func (c *Cell) ActsTouching(limit uint64) (acts, touched uint64, err error) {
	var taken, nodes C.uint64_t
	err = answer(C.ipcz_cell_acts_touching(c.c(), C.uint64_t(limit), &taken, &nodes))
	return uint64(taken), uint64(nodes), err
}

// Quiet tells whether the node has nothing to do, nothing of it waits to be taken by another node, and no message to it was found.
func (c *Cell) Quiet() bool {
	return bool(C.ipcz_cell_quiet(c.c()))
}

// What Retry found.
const (
	NoneWaits = C.IPCZ_NONE_WAITS // no router of the node was told that there is no slot
	NoSlot    = C.IPCZ_NO_SLOT    // one was, and no slot, or no number, is left for it
	Again     = C.IPCZ_AGAIN      // one was, and asks again at the next turns of the node; others may wait behind it
)

// Retry lets a router that was told that there is no slot for its shorter way ask again, if one is to be had now: NoneWaits, NoSlot or Again. It
// doesn't ask again by itself, and until then parcels go the longer way. In a table of NewLastingCells whose slots are all in use at times, call
// it now and then, and take turns of the nodes behind it.
func (c *Cell) Retry() uint32 {
	return uint32(C.ipcz_cell_retry(c.c()))
}

// Claimed tells how many link words of the table were used, when their count was read.
func (c *Cell) Claimed() uint64 {
	return uint64(C.ipcz_cell_claimed(c.c()))
}

// Word tells the number of a link word of the table, and whether it was used.
func (c *Cell) Word(i uint64) (word uint64, used bool) {
	var number C.uint64_t
	used = bool(C.ipcz_cell_word(c.c(), C.uint64_t(i), &number))
	return uint64(number), used
}

// Holds tells whether the node may use a portal now.
func (c *Cell) Holds(portal Portal) bool {
	return bool(C.ipcz_cell_holds(c.c(), portal.c()))
}

// Node tells the number of the node, and whether the cell wasn't destroyed.
func (c *Cell) Node() (node uint8, there bool) {
	var number C.uint8_t
	there = bool(C.ipcz_cell_node(c.c(), &number))
	return uint8(number), there
}
