// The files of the members in Go.
package main

import (
	"encoding/json"
	"errors"
	"fmt"
	"io/fs"
	"log"
	"os"
	"path/filepath"
	"strings"
	"syscall"
)

func check(err error) {
	if err != nil {
		log.Fatal(err)
	}
}

func must[T any](value T, err error) T { check(err); return value }

// read returns the bytes of a file, or none if there is no file.
func read(path string) []byte {
	text, err := os.ReadFile(path)
	if !errors.Is(err, fs.ErrNotExist) {
		check(err)
	}
	return text
}

// sync syncs a file or a folder and closes it.
func sync(file *os.File) { check(file.Sync()); check(file.Close()) }

// put replaces a file as a whole, and syncs nothing.
func put(path string, text []byte) {
	check(os.WriteFile(path+".new", text, 0o666))
	check(os.Rename(path+".new", path))
}

// keep replaces a file as a whole; when it returns, the text is on the disk.
func keep(path string, text []byte) {
	file := must(os.Create(path + ".new"))
	must(file.Write(text))
	sync(file)
	check(os.Rename(path+".new", path))
	sync(must(os.Open(".")))
}

// load reads a value from a file, unless there is no file.
func load(path string, value any) {
	if text := read(path); len(text) > 0 {
		check(json.Unmarshal(text, value))
	}
}

// store keeps a value in a file.
func store(path string, value any) { keep(path, must(json.Marshal(value))) }

var lock *os.File // open until the process ends

// enter takes the arguments NODE ADDRESS FOLDER, makes the folder the working directory, and holds it, so that no other process
// is this member. Before its first view the member talks in no run.
func enter() (node Field, address string) {
	if len(os.Args) != 4 {
		log.Fatalf("usage: %s NODE unix:PATH|tls:HOST:PORT|HOST:PORT FOLDER", filepath.Base(os.Args[0]))
	}
	folder := os.Args[3]
	check(os.MkdirAll(folder, 0o777))
	check(os.Chdir(folder))
	lock = must(os.OpenFile("lock", os.O_RDWR|os.O_CREATE, 0o666))
	if err := syscall.Flock(int(lock.Fd()), syscall.LOCK_EX|syscall.LOCK_NB); err == syscall.EWOULDBLOCK {
		log.Fatalf("process %s works with %s", strings.TrimSpace(string(read("lock"))), folder)
	} else {
		check(err)
	}
	check(lock.Truncate(0))
	must(fmt.Fprintln(lock, os.Getpid()))
	os.Remove("run")
	return Field(os.Args[1]), os.Args[2]
}

// takeRefused returns the tag that was refused last. One that replaces it meanwhile is left for the next call.
func takeRefused() string {
	if err := os.Rename("refused", "refused.taken"); !errors.Is(err, fs.ErrNotExist) {
		check(err)
	}
	tag := read("refused.taken")
	os.Remove("refused.taken")
	return strings.TrimSpace(string(tag))
}
