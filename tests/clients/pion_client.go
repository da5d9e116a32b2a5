// A client of pion's TURN library: a Binding, an allocation, a permission, and messages to a peer that sends each back, first as
// indications and then, once the library has bound a channel, as ChannelData. At the end the allocation is deleted.
package main

import (
	"fmt"
	"log"
	"net"
	"os"
	"strconv"
	"time"

	"github.com/pion/turn/v2"
)

// echo sends each datagram back that it receives.
func echo(conn net.PacketConn) {
	buffer := make([]byte, 1500)
	for {
		n, from, err := conn.ReadFrom(buffer)
		if err != nil {
			return
		}
		if _, err := conn.WriteTo(buffer[:n], from); err != nil {
			return
		}
	}
}

// exchange sends messages over the relay one after the other, and fails where one doesn't come back.
func exchange(relayed net.PacketConn, peer net.Addr, count int) error {
	buffer := make([]byte, 1500)
	for i := 0; i < count; i++ {
		sent := fmt.Sprintf("message %d", i)
		if _, err := relayed.WriteTo([]byte(sent), peer); err != nil {
			return err
		}
		if err := relayed.SetReadDeadline(time.Now().Add(5 * time.Second)); err != nil {
			return err
		}
		n, from, err := relayed.ReadFrom(buffer)
		if err != nil {
			return err
		}
		if string(buffer[:n]) != sent || from.String() != peer.String() {
			return fmt.Errorf("%q from %v came back for %q", buffer[:n], from, sent)
		}
	}
	return nil
}

func run(server string, count int, username, password string) error {
	conn, err := net.ListenPacket("udp4", "127.0.0.1:0")
	if err != nil {
		return err
	}
	defer conn.Close()
	peer, err := net.ListenPacket("udp4", "127.0.0.1:0")
	if err != nil {
		return err
	}
	defer peer.Close()
	go echo(peer)
	client, err := turn.NewClient(&turn.ClientConfig{
		STUNServerAddr: server, TURNServerAddr: server, Conn: conn, Username: username, Password: password, Realm: "relay",
	})
	if err != nil {
		return err
	}
	defer client.Close()
	if err := client.Listen(); err != nil {
		return err
	}
	mapped, err := client.SendBindingRequest()
	if err != nil {
		return err
	}
	if mapped.String() != conn.LocalAddr().String() {
		return fmt.Errorf("the mapped address is %v", mapped)
	}
	relayed, err := client.Allocate()
	if err != nil {
		return err
	}
	if err := exchange(relayed, peer.LocalAddr(), count); err != nil {
		return err
	}
	return relayed.Close()
}

func main() {
	count, err := strconv.Atoi(os.Args[2])
	if err != nil {
		log.Fatal(err)
	}
	if err := run(os.Args[1], count, os.Args[3], os.Args[4]); err != nil {
		log.Fatal(err)
	}
	fmt.Println(count)
}
