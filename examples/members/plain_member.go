// A member in plain Go by the table of docs/SERVICES.md. proxy.go beside it has the connection and its lines, files.go the files.
//
// usage: plain_member NODE unix:PATH|tls:HOST:PORT|HOST:PORT FOLDER    (made by go build plain_member.go proxy.go files.go)
//
// FOLDER/kept has the member's state, and would have its work. While the member may talk, FOLDER/run has the epoch and the tag (- if
// it is alone), and FOLDER/fence its fence for a database. Whoever refuses a message of another run writes its tag into FOLDER/refused.
package main

import (
	"crypto/sha256"
	"fmt"
	"os"
	"sort"
	"strings"
)

var node Field // of this member
var kept = struct {
	Begun   string          // the epoch of the work, "" for none
	First   string          // the party with which this start first talked, "" for none
	Fence   string          // of that moment
	History map[string]bool // the digests of such parties of all starts
}{History: map[string]bool{}}

func digest(text string) string { return fmt.Sprintf("%x", sha256.Sum256([]byte(text))) }

// connected returns the nodes that a path of links connects with the member's.
func connected(view View) map[Field]bool {
	near := map[Field]bool{node: true}
	for range view.Links { // no path has more of them
		for _, link := range view.Links {
			if near[link[0]] || near[link[1]] {
				near[link[0]], near[link[1]] = true, true
			}
		}
	}
	return near
}

// judge does what a view asks for, and returns the order to send, if any.
func judge(line []byte) string {
	view := viewOf(line)
	near, own, party, isReady, isThrough := connected(view), [6]Field{}, []string{}, true, true
	for _, row := range view.Nodes {
		if row[0] == node {
			own = row
		}
		if near[row[0]] {
			party = append(party, fmt.Sprintln(row[0], row[4]))
			isReady = isReady && row[2] == `"ready"`
			isThrough = isThrough && isReady && row[4] == row[5]
		}
	}
	for _, link := range view.Links {
		if near[link[0]] {
			party = append(party, fmt.Sprintln(link[0], link[1], link[2]))
		}
	}
	sort.Strings(party)
	epoch, shown := string(own[4]), strings.Join(party, "")
	isKnown, isBegun := kept.History[digest(shown)], epoch != "" && own[4] == own[5] && epoch == kept.Begun
	if isBegun && isThrough && kept.First == "" && !isKnown {
		talkFirst(view.Settled, shown, len(party) == 1)
	}
	isOurs := isBegun && isThrough && kept.First != ""
	for _, line := range party {
		isOurs = isOurs && strings.Contains("\n"+kept.First, "\n"+line)
	}
	order := fmt.Sprintf(`"node":%s,"epoch":%s}`, node, epoch)
	if isOurs && talk(epoch, shown) {
		return `{"op":"reset",` + order
	} else if isOurs {
		return ""
	}
	os.Remove("run")
	if own[4] != own[5] && !isKnown {
		kept.Begun, kept.First = epoch, "" // and the common start, in the place of all work
		store("kept", kept)
		return `{"op":"confirm",` + order
	} else if epoch != "" && isReady && (isThrough || !isBegun) {
		return `{"op":"reset",` + order
	}
	return ""
}

// talkFirst stores the party with which this start talks. That of one alone may come again, so its fence has the moment too.
func talkFirst(settled Field, party string, isAlone bool) {
	name := party
	if isAlone {
		name = fmt.Sprintf("@%s\n%s", settled, party)
	} else {
		kept.History[digest(party)] = true
	}
	kept.First, kept.Fence = party, fmt.Sprintf("%s %.32s\n", settled, digest(name))
	store("kept", kept)
}

// talk publishes the run, and returns whether a refused tag needs a reset.
func talk(epoch, shown string) bool {
	tag := fmt.Sprintf("%.32s-%.32s", digest(kept.First), digest(shown))
	if strings.Count(kept.First, "\n") == 1 {
		tag = "-" // it is alone
	}
	put("fence", []byte(kept.Fence))
	put("run", []byte(epoch+" "+tag+"\n"))
	run, seen, _ := strings.Cut(tag, "-")
	otherRun, otherSeen, isRefused := strings.Cut(takeRefused(), "-")
	return isRefused && run != otherRun && seen == otherSeen
}

func main() {
	var address string
	node, address = enter()
	load("kept", &kept)
	store("kept", kept) // again, since the previous process may have been killed before its sync
	follow(address, judge)
}
