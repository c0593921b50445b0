package loop

import (
	"context"

	portals "ipcz_portals"
)

// A Portal is a portal of a node. Who has no more use for it closes it: nobody else does, but the nodes close those in parcels that nobody receives.
type Portal struct {
	node *Node
	name portals.Portal
}

// Name is the portal's name, which is also that of the portal at other nodes.
func (p *Portal) Name() portals.Portal {
	return p.name
}

// Send sends a parcel of at most 65,536 bytes, with at most 8 portals of this node, which are the receiver's then. It doesn't wait for a receiver, and nothing
// limits how many parcels wait for one. PeerClosed, TooMany, Stranger, SelfAttach, PeerAttach, NumbersEnd, OutOfMemory, Stopped: nothing is sent.
//
// Portals that are sent to meet each other may travel for ever (ipcz_portals.h, "CIRCLES").
func (p *Portal) Send(bytes []byte, with ...*Portal) error {
	names := make([]portals.Portal, len(with))
	for i, portal := range with {
		if portal.node != p.node {
			return portals.Stranger
		}
		names[i] = portal.name
	}
	return p.node.call(func() error {
		_, err := p.node.cell.Put(p.name, bytes, names...)
		return err
	})
}

// Recv receives the next parcel, and waits until there is one or the context is done. PeerClosed: none will come. Stopped: the loop was closed. Stranger: the portal
// isn't the node's any more. NumbersEnd, OutOfMemory: a turn was refused; call again.
func (p *Portal) Recv(ctx context.Context) (Parcel, error) {
	return p.node.received(p.node.receive(ctx, []portals.Portal{p.name}))
}

// TryRecv receives the next parcel; Empty if none has come.
func (p *Portal) TryRecv() (Parcel, error) {
	return p.node.received(p.node.receive(nil, []portals.Portal{p.name}))
}

// Look tells what TryRecv would give, one call after the other. Nothing is taken, and another goroutine may take it before this one does. Stranger, Stopped.
func (p *Portal) Look() (seen portals.Look, err error) {
	err = p.node.lookAt(func() error {
		seen, err = p.node.cell.Look(p.name)
		return err
	})
	return seen, err
}

// HasArrived tells whether the portal has arrived, so that it leaves at most one router in its route if it travels on now. Stranger, Stopped.
func (p *Portal) HasArrived() (arrived bool, err error) {
	err = p.node.lookAt(func() error {
		arrived, err = p.node.cell.HasArrived(p.name)
		return err
	})
	return arrived, err
}

// Parcels gives the parcels that come, until a Recv is refused or the context is done; then the channel is closed. A parcel that nobody took from the channel when
// the context is done is lost, and its portals are closed.
func (p *Portal) Parcels(ctx context.Context) <-chan Parcel {
	parcels := make(chan Parcel)
	go func() {
		defer close(parcels)
		for {
			parcel, err := p.Recv(ctx)
			if err != nil {
				return
			}
			select {
			case parcels <- parcel:
			case <-ctx.Done():
				for _, portal := range parcel.Portals {
					portal.Close()
				}
				return
			}
		}
	}()
	return parcels
}

// Close closes the portal. What was sent there still comes to the other one; what comes to it is discarded. Stranger, OutOfMemory, Stopped.
func (p *Portal) Close() error {
	return p.node.call(func() error { return p.node.cell.Close(p.name) })
}
