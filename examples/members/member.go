// A member in Go, through a proxy, by resetd_member.go and docs/SERVICES.md, with the files of member.c.
//
// usage: member NODE unix:PATH|tls:HOST:PORT|HOST:PORT FOLDER
//
//	(made by CGO_LDFLAGS=-lresetd_member go build member.go resetd_member.go proxy.go files.go)
package main

import (
	"bytes"
	"fmt"
	"os"
	"strconv"
)

// Member has what resetd_judge takes besides the view.
type Member struct {
	node                   uint8
	boot                   []byte  // the name of this boot
	work                   *uint64 // the epoch of the work, nil for none
	start                  []byte  // the start as JudgeShow takes it
	startFile, historyFile string
	isStartRead            bool // this process has not written the start file yet
}

// writeStart replaces the start file. The first write of a process is always synced: after a power cut the text of an earlier version,
// which counts in any boot, must not come back.
func (member *Member) writeStart(text []byte, isSynced bool) {
	if isSynced || member.isStartRead {
		keep(member.startFile, text)
	} else {
		put(member.startFile, text)
	}
	member.isStartRead = false
}

// appendHistory replaces all that comes after the first bytes of the history by a line, which is on the disk when it returns.
func (member *Member) appendHistory(size int64, line []byte) {
	file := must(os.OpenFile(member.historyFile, os.O_WRONLY|os.O_CREATE, 0o666))
	check(file.Truncate(size))
	must(file.WriteAt(line, size))
	sync(file)
	if size == 0 {
		sync(must(os.Open(".")))
	}
}

// begin drops the work and begins an epoch. The start file says on the disk that nothing is begun.
func (member *Member) begin(epoch uint64) {
	keep("work", []byte(fmt.Sprintln(epoch))) // the common start itself would stand here
	member.work = &epoch
	member.writeStart(must(Loaded(member.node, epoch, member.boot)), false)
	member.start = must(Begun(member.node, epoch))
	fmt.Printf("member %d: starts anew, epoch %d\n", member.node, epoch)
}

// talk publishes the run, and returns whether a message was refused whose sender can't come to the same run.
func (member *Member) talk(epoch uint64, view []byte) bool {
	tag := must(TagOf(view, member.node, member.start, nil))
	put("run", []byte(fmt.Sprintln(epoch, tag)))
	return AreParted(tag, []byte(takeRefused()))
}

// judge does what a view asks for, and returns the order to send, if any.
func (member *Member) judge(view []byte) string {
	judged, err := JudgeShow(view, member.node, member.start, read(member.historyFile), member.work)
	if err != nil || judged.Due != Talk {
		os.Remove("run")
	}
	if err == NoNode {
		return ""
	}
	check(err)
	if len(judged.Line) > 0 {
		member.appendHistory(judged.HistorySize, judged.Line)
	}
	if len(judged.Start) > 0 {
		member.writeStart(judged.Start, judged.Due == Begin)
		member.start = judged.Start
	}
	switch {
	case judged.Due == Begin:
		member.begin(judged.Epoch)
		return fmt.Sprintf(`{"op":"confirm","node":%d,"epoch":%d}`, member.node, judged.Epoch)
	case judged.Due == Reset, judged.Due == Talk && member.talk(judged.Epoch, view):
		return fmt.Sprintf(`{"op":"reset","node":%d,"epoch":%d}`, member.node, judged.Epoch)
	}
	return ""
}

// load syncs the member's files, since the previous process may have been killed before its sync, and reads them.
func (member *Member) load() {
	for _, path := range []string{"work", member.startFile, member.historyFile, "."} {
		if file, err := os.Open(path); err == nil {
			sync(file)
		}
	}
	member.boot = bytes.TrimSpace(read("/proc/sys/kernel/random/boot_id"))
	if epoch, err := strconv.ParseUint(string(bytes.TrimSpace(read("work"))), 10, 64); err == nil {
		member.work = &epoch
	}
	member.start = must(Carried(member.node, read(member.startFile), member.boot))
	member.isStartRead = true
}

func main() {
	node, address := enter()
	member := Member{startFile: fmt.Sprintf("start-%s.json", node), historyFile: fmt.Sprintf("start-%s.history", node)}
	must(fmt.Sscan(string(node), &member.node))
	member.load()
	follow(address, member.judge)
}
