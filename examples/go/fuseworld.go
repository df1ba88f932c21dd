// Package fuseworld runs the program fuseworld in tests of FUSE servers and kernels, with the standard library alone.
//
// The variable FUSEWORLD names the program, else it is looked for on the path. What it prints is in docs/SIDES.md,
// docs/DRIVE.md and docs/CHECK.md.
package fuseworld

import (
	"bufio"
	"encoding/hex"
	"encoding/json"
	"fmt"
	"io"
	"os"
	"os/exec"
)

// Node is a node that a side counts.
type Node struct{ Nodeid, Generation, Count uint64 }

// Answer is a call that is answered: an error number or 0, and the values that the call gives.
type Answer struct {
	Call, Error      uint64
	Kind, Data       string
	Ino, Size, Nlink uint64
	Names            []struct {
		Name, Kind string
		Off        uint64
	}
}

// Object is what a line comes to; which members it has is in docs/SIDES.md. Number and Name are a refusal's or a fault's.
type Object struct {
	Event, Opcode, Word, Name, Frame, Line, Effect string
	Unique, Result, Call, Copy, Count, Number      uint64
	Lost                                           bool
	Nodes                                          []Node
	Answers                                        []Answer
}

// Side is a kernel or a server as a process.
type Side struct {
	process *exec.Cmd
	to      io.WriteCloser
	from    *bufio.Reader
}

func program(words ...string) *exec.Cmd {
	path := os.Getenv("FUSEWORLD")
	if path == "" {
		path = "fuseworld"
	}
	return exec.Command(path, words...)
}

func start(command string) (*Side, error) {
	process := program(command, "--json")
	process.Stderr = os.Stderr
	to, err := process.StdinPipe()
	if err != nil {
		return nil, err
	}
	from, err := process.StdoutPipe()
	if err != nil {
		return nil, err
	}
	return &Side{process, to, bufio.NewReader(from)}, process.Start()
}

// Kernel starts the proved kernel, in front of your server.
func Kernel() (*Side, error) { return start("kernel") }

// Server starts the proved server, in front of your kernel; begin with the line "mount 1000 0".
func Server() (*Side, error) { return start("server") }

// Close ends the process.
func (side *Side) Close() error {
	side.to.Close()
	return side.process.Wait()
}

// Say gives the object that a line comes to. Of a line that is no line, an error.
func (side *Side) Say(line string) (Object, error) {
	var object Object
	if _, err := io.WriteString(side.to, line+"\n"); err != nil {
		return object, err
	}
	said, err := side.from.ReadBytes('\n')
	if err == nil {
		err = json.Unmarshal(said, &object)
	}
	if err == nil && object.Line != "" {
		err = fmt.Errorf("%s: %s", line, object.Line)
	}
	return object, err
}

// Frame is Say, and gives the bytes of the frame. Where there is none, an error.
func (side *Side) Frame(line string) ([]byte, error) {
	object, err := side.Say(line)
	if err == nil && object.Frame == "" {
		err = fmt.Errorf("%s: no frame: %s", line, object.Name)
	}
	if err != nil {
		return nil, err
	}
	return hex.DecodeString(object.Frame)
}

// Write gives what the kernel makes of bytes as a reply: Result is 0, 2 (ENOENT) or 22 (EINVAL).
func (side *Side) Write(frame []byte) (Object, error) { return side.Say("write " + hexOf(frame)) }

// Take gives what the server makes of bytes as a request.
func (side *Side) Take(frame []byte) (Object, error) { return side.Say("take " + hexOf(frame)) }

func hexOf(frame []byte) string {
	if len(frame) == 0 {
		return "-"
	}
	return hex.EncodeToString(frame)
}
