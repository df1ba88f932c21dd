package fuseworld

import (
	"bytes"
	"encoding/json"
	"fmt"
	"net"
	"os"
	"os/exec"
	"path/filepath"
	"strings"
)

// Drive drives a server by the lines of a script: serve has the server's end of a connection. Without options a line is a
// call, and its answer is compared with the proved server's. It gives the lines that are printed.
func Drive(script []string, serve func(net.Conn), options ...string) ([]string, error) {
	folder, err := os.MkdirTemp("", "fuseworld")
	if err != nil {
		return nil, err
	}
	defer os.RemoveAll(folder)
	file, path := filepath.Join(folder, "script"), filepath.Join(folder, "socket")
	if err := os.WriteFile(file, []byte(strings.Join(script, "\n")+"\n"), 0o600); err != nil {
		return nil, err
	}
	listener, err := net.Listen("unix", path)
	if err != nil {
		return nil, err
	}
	defer listener.Close()
	go func() {
		if connection, err := listener.Accept(); err == nil {
			serve(connection)
		}
	}()
	if len(options) == 0 {
		options = []string{"--beside"}
	}
	return linesOf(program(append(append([]string{"drive"}, options...), file, path)...), 0, 4, 6)
}

// Fault is a rule that a session breaks, or what is odd in it (Event "warning").
type Fault struct {
	Event, Party, Rule   string
	Line, Unique, Nodeid uint64
}

// Check judges the lines of a capture: "> HEX" a request, "< HEX" a reply. It gives the faults and warnings.
func Check(capture []string) ([]Fault, error) {
	judge := program("check", "--json")
	judge.Stdin = strings.NewReader(strings.Join(capture, "\n") + "\n")
	lines, err := linesOf(judge, 0, 6)
	var faults []Fault
	for _, line := range lines {
		var fault Fault
		if err := json.Unmarshal([]byte(line), &fault); err != nil {
			return nil, err
		}
		if fault.Rule != "" {
			faults = append(faults, fault)
		}
	}
	return faults, err
}

// linesOf gives what a program prints where it ends with one of these statuses; else an error with what it said.
func linesOf(ran *exec.Cmd, statuses ...int) ([]string, error) {
	var said bytes.Buffer
	ran.Stderr = &said
	out, err := ran.Output()
	if state := ran.ProcessState; state != nil && len(out) > 0 {
		for _, status := range statuses {
			if state.ExitCode() == status {
				return strings.Split(strings.TrimSpace(string(out)), "\n"), nil
			}
		}
	}
	return nil, fmt.Errorf("fuseworld: %v: %s", err, strings.TrimSpace(said.String()))
}
