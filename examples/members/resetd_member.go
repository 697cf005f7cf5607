// What resetd_member.h declares, for Go. The header says what each function gives, and where its files and lines go.
package main

// #include <resetd_member.h>
import "C"

import "fmt"

// Status says why a call gave nothing.
type Status C.uint32_t

const (
	BadLine    Status = C.RESETD_BAD_LINE
	NoNode     Status = C.RESETD_NO_NODE
	BadStart   Status = C.RESETD_BAD_START
	BadHistory Status = C.RESETD_BAD_HISTORY
)

func (s Status) Error() string { return fmt.Sprintf("resetd_member: status %d", uint32(s)) }

func failure(status C.uint32_t) error {
	if status == C.RESETD_OK {
		return nil
	}
	return Status(status)
}

// Due is what a member has to do.
type Due C.uint32_t

const (
	Talk  Due = C.RESETD_TALK
	Wait  Due = C.RESETD_WAIT
	Begin Due = C.RESETD_BEGIN
	Reset Due = C.RESETD_RESET
)

// Judged is what is due at the epoch that is shown. Before it is done, Line stands in the history at HistorySize, in the
// place of all after it, and Start in the file of the start; one without bytes changes nothing.
type Judged struct {
	Due         Due
	Epoch       uint64
	Start, Line []byte
	HistorySize int64
}

// A text for C: where its bytes stand, which is never NULL, and their count.
func at(text []byte) *C.uint8_t {
	if len(text) == 0 {
		return new(C.uint8_t)
	}
	return (*C.uint8_t)(&text[0])
}

func size(text []byte) C.size_t { return C.size_t(len(text)) }

// JudgeShow judges a line that answers `show`. The epoch of the work in hand is nil where there is none.
func JudgeShow(show []byte, node uint8, start, history []byte, work *uint64) (Judged, error) {
	var judged C.struct_resetd_judged
	var inHand C.struct_resetd_work
	if work != nil {
		inHand = C.struct_resetd_work{is_there: true, epoch: C.uint64_t(*work)}
	}
	out := make([]byte, C.RESETD_MOST_TEXT)
	err := failure(C.resetd_judge(at(show), size(show), C.uint8_t(node), at(start), size(start), at(history), size(history),
		&inHand, at(out), size(out), &judged))
	if err != nil {
		return Judged{}, err
	}
	text, line := out[:judged.start_length], out[judged.start_length:][:judged.line_length]
	return Judged{Due(judged.due), uint64(judged.epoch), text, line, int64(judged.history_size)}, nil
}

// A call that puts a text into the room that it is given.
func textOf(room int, call func(out *C.uint8_t, room C.size_t, length *C.size_t) C.uint32_t) ([]byte, error) {
	out, length := make([]byte, room), C.size_t(0)
	err := failure(call(at(out), size(out), &length))
	return out[:length], err
}

// Begun is the text of the start that JudgeShow takes, once the common start is on the disk.
func Begun(node uint8, epoch uint64) ([]byte, error) {
	return textOf(C.RESETD_MOST_TEXT, func(out *C.uint8_t, room C.size_t, length *C.size_t) C.uint32_t {
		return C.resetd_begun(C.uint8_t(node), C.uint64_t(epoch), out, room, length)
	})
}

// Loaded is that for the file of the start, which counts in the boot of this name.
func Loaded(node uint8, epoch uint64, boot []byte) ([]byte, error) {
	return textOf(C.RESETD_MOST_TEXT, func(out *C.uint8_t, room C.size_t, length *C.size_t) C.uint32_t {
		return C.resetd_loaded(C.uint8_t(node), C.uint64_t(epoch), at(boot), size(boot), out, room, length)
	})
}

// Carried is what the file of the start says in the boot of this name, as JudgeShow takes it.
func Carried(node uint8, start, boot []byte) ([]byte, error) {
	return textOf(C.RESETD_MOST_TEXT, func(out *C.uint8_t, room C.size_t, length *C.size_t) C.uint32_t {
		return C.resetd_carried(C.uint8_t(node), at(start), size(start), at(boot), size(boot), out, room, length)
	})
}

// Tag names the run of a start; one without bytes is none.
type Tag []byte

func (t Tag) String() string {
	if len(t) == 0 {
		return "-"
	}
	return string(t)
}

// TagOf is the tag of a start that is due to talk.
func TagOf(show []byte, node uint8, start, word []byte) (Tag, error) {
	return textOf(C.RESETD_MOST_TAG, func(out *C.uint8_t, room C.size_t, length *C.size_t) C.uint32_t {
		return C.resetd_tag(at(show), size(show), C.uint8_t(node), at(start), size(start), at(word), size(word), out, room, length)
	})
}

// IsSameRun says whether a message with the tag other is of the run of own, the receiver's.
func IsSameRun(own, other Tag) bool {
	return bool(C.resetd_is_same_run(at(own), size(own), at(other), size(other)))
}

// AreParted says whether no look can bring two tags together.
func AreParted(own, other Tag) bool {
	return bool(C.resetd_are_parted(at(own), size(own), at(other), size(other)))
}
