package loop_test

import (
	"context"
	"fmt"
	"log"
	"strconv"
	"sync"
	"sync/atomic"

	"ipcz_portals/loop"
)

func must(err error) {
	if err != nil {
		log.Fatal(err)
	}
}

// What is sent at a node comes at the other.
func Example() {
	nodes, err := loop.New(2)
	must(err)
	defer nodes.Close()
	portal := nodes.Node(0).First(1)
	must(portal.Send([]byte("hello")))
	must(portal.Close())
	for parcel := range nodes.Node(1).First(0).Parcels(context.Background()) {
		fmt.Println(string(parcel.Bytes))
	}
	// Output: hello
}

// The asker sends a portal for the answer along; whoever has the request answers there, and closes it.
func Example_requestAndReply() {
	background := context.Background()
	nodes, err := loop.New(2)
	must(err)
	defer nodes.Close()
	go func() {
		for request := range nodes.Node(1).First(0).Parcels(background) {
			var a, b int
			_, err := fmt.Sscanf(string(request.Bytes), "%d * %d", &a, &b)
			must(err)
			must(request.Portals[0].Send([]byte(strconv.Itoa(a * b))))
			must(request.Portals[0].Close())
		}
	}()
	for _, text := range []string{"6 * 7", "111 * 111"} {
		answer, to, err := nodes.Node(0).Open()
		must(err)
		must(nodes.Node(0).First(1).Send([]byte(text), to))
		parcel, err := answer.Recv(background)
		must(err)
		_, err = answer.Recv(background)
		fmt.Printf("%s = %s, then %v\n", text, parcel.Bytes, err)
		must(answer.Close())
	}
	// Output:
	// 6 * 7 = 42, then PeerClosed
	// 111 * 111 = 12321, then PeerClosed
}

// Three goroutines wait at one portal, and whoever waited longest gets the next job.
func Example_workers() {
	background := context.Background()
	nodes, err := loop.New(2)
	must(err)
	defer nodes.Close()
	var workers sync.WaitGroup
	for i := 0; i < 3; i++ {
		workers.Add(1)
		go func() {
			defer workers.Done()
			jobs := nodes.Node(1).First(0)
			for job := range jobs.Parcels(background) {
				number, err := strconv.Atoi(string(job.Bytes))
				must(err)
				must(jobs.Send([]byte(strconv.Itoa(number * number))))
			}
		}()
	}
	jobs := nodes.Node(0).First(1)
	for job := 1; job <= 100; job++ {
		must(jobs.Send([]byte(strconv.Itoa(job))))
	}
	done, sum := 0, 0
	for ; done < 100; done++ {
		parcel, err := jobs.Recv(background)
		must(err)
		square, err := strconv.Atoi(string(parcel.Bytes))
		must(err)
		sum += square
	}
	fmt.Printf("%d jobs, the squares add up to %d\n", done, sum)
	must(jobs.Close())
	workers.Wait()
	// Output:
	// 100 jobs, the squares add up to 338350
}

// Serves the channel that comes from the node before: answers so many words, and hands it on to the node behind, if there is one.
func serve(node *loop.Node, words int, last bool) {
	background := context.Background()
	parcel, err := node.First(node.Number() - 1).Recv(background)
	must(err)
	channel := parcel.Portals[0]
	for i := 0; i < words; i++ {
		word, err := channel.Recv(background)
		must(err)
		must(channel.Send([]byte(fmt.Sprintf("node %d heard %s", node.Number(), word.Bytes))))
	}
	if last {
		must(channel.Close())
	} else {
		must(node.First(node.Number()+1).Send([]byte("you go on"), channel))
	}
}

// The server gives its portal to another node, which goes on, and the client notices nothing.
func Example_channel() {
	background := context.Background()
	nodes, err := loop.New(3)
	must(err)
	defer nodes.Close()
	go serve(nodes.Node(1), 1, false)
	go serve(nodes.Node(2), 2, true)
	client, server, err := nodes.Node(0).Open()
	must(err)
	must(nodes.Node(0).First(1).Send([]byte("serve this"), server))
	for _, word := range []string{"one", "two", "three"} {
		must(client.Send([]byte(word)))
	}
	for err == nil {
		var answer loop.Parcel
		if answer, err = client.Recv(background); err == nil {
			fmt.Println(string(answer.Bytes))
		}
	}
	fmt.Println(err)
	// Output:
	// node 1 heard one
	// node 2 heard two
	// node 2 heard three
	// PeerClosed
}

// A sender sends no more parcels than the receiver has given credits for, and waits until it has one.
type sender struct {
	at      *loop.Portal
	credits int
}

func (s *sender) send(bytes []byte) error {
	for {
		if _, err := s.at.TryRecv(); err != nil {
			break
		}
		s.credits++
	}
	if s.credits == 0 {
		if _, err := s.at.Recv(context.Background()); err != nil {
			return err
		}
		s.credits++
	}
	s.credits--
	return s.at.Send(bytes)
}

// Back-pressure: the receiver grants four credits, and one more for each parcel that it has dealt with.
func Example_credits() {
	nodes, err := loop.New(2)
	must(err)
	defer nodes.Close()
	var dealtWith atomic.Int32
	receiver := make(chan struct{})
	go func() {
		defer close(receiver)
		at := nodes.Node(1).First(0)
		for i := 0; i < 4; i++ {
			must(at.Send(nil))
		}
		for range at.Parcels(context.Background()) {
			dealtWith.Add(1)
			// (an error: the sender has closed, and wants no credit)
			_ = at.Send(nil)
		}
	}()
	sends, most := sender{at: nodes.Node(0).First(1)}, 0
	for i := 0; i < 1000; i++ {
		must(sends.send([]byte(strconv.Itoa(i))))
		if ahead := i + 1 - int(dealtWith.Load()); ahead > most {
			most = ahead
		}
	}
	must(sends.at.Close())
	<-receiver
	fmt.Printf("%d parcels, never more than 4 ahead: %t\n", dealtWith.Load(), most <= 4)
	// Output:
	// 1000 parcels, never more than 4 ahead: true
}
