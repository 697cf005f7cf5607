// The connection of the members in Go to a proxy, and its lines, by docs/SERVICES.md, "In another language".
package main

import (
	"bufio"
	"bytes"
	"crypto/tls"
	"crypto/x509"
	"encoding/json"
	"fmt"
	"log"
	"net"
	"os"
	"strings"
	"time"
)

const (
	silence = 45 * time.Second // a proxy that is there sends a view every 15 seconds
	pause   = 300 * time.Millisecond
	watch   = `{"op":"watch"}`
	show    = `{"op":"show"}`
)

type Field string // of a row, as the line spells it

func (field *Field) UnmarshalJSON(text []byte) error { *field = Field(text); return nil }

type View struct {
	Settled Field
	Nodes   [][6]Field // node, group, mode, parent, epoch, confirmed
	Links   [][3]Field // two nodes, incarnation
}

func viewOf(line []byte) (view View) { check(json.Unmarshal(line, &view)); return view }

// follow judges each view that the proxy sends, and sends the order that the judge returns, if any.
func follow(address string, judge func(view []byte) (order string)) {
	for ; ; time.Sleep(pause) {
		if proxy, err := dial(address); err == nil {
			followUntilItEnds(proxy, judge)
			proxy.Close()
		}
	}
}

func followUntilItEnds(proxy net.Conn, judge func(view []byte) (order string)) {
	done := make(chan bool)
	defer close(done)
	go lookWhereRefused(proxy, done)
	fmt.Fprintln(proxy, watch)
	for lines, isOrdered := bufio.NewReader(proxy), false; ; {
		proxy.SetReadDeadline(time.Now().Add(silence))
		line, err := lines.ReadBytes('\n')
		if err != nil {
			return
		}
		if !bytes.HasPrefix(line, []byte(`{"accepted":`)) { // the answer to the order: judge a view from after it
			if bytes.HasPrefix(line, []byte(`{"fault":`)) && !bytes.Contains(line, []byte("OutOfMemory")) {
				log.Fatalf("the proxy answers %s", line)
			}
			isOrdered = false
			fmt.Fprintln(proxy, show)
		} else if !isOrdered { // otherwise the view may be older than the order
			if order := judge(line); order != "" {
				isOrdered = true
				fmt.Fprintln(proxy, order)
			}
		}
	}
}

func lookWhereRefused(proxy net.Conn, done <-chan bool) {
	for seconds := time.NewTicker(time.Second); ; {
		select {
		case <-done:
			seconds.Stop()
			return
		case <-seconds.C:
			if _, err := os.Stat("refused"); err == nil {
				fmt.Fprintln(proxy, show)
			}
		}
	}
}

// dial connects with unix:PATH, with tls:HOST:PORT, or with HOST:PORT, which is stunnel's.
func dial(address string) (net.Conn, error) {
	switch kind, place, _ := strings.Cut(address, ":"); kind {
	case "unix":
		return net.Dial("unix", place)
	case "tls":
		pair := must(tls.LoadX509KeyPair(os.Getenv("RESETD_CERTIFICATE"), os.Getenv("RESETD_KEY")))
		config := &tls.Config{Certificates: []tls.Certificate{pair}, RootCAs: x509.NewCertPool()}
		config.RootCAs.AppendCertsFromPEM(must(os.ReadFile(os.Getenv("RESETD_AUTHORITY"))))
		return tls.Dial("tcp", place, config)
	}
	return net.Dial("tcp", address)
}
