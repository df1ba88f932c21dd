// A FUSE server of one file, held against the proved kernel: FUSEWORLD=path go test
package fuseworld

import (
	"encoding/hex"
	"testing"
)

// session is a kernel in front of the server, and the capture of what they say.
type session struct {
	*testing.T
	kernel  *Side
	server  server
	capture []string
}

func (s *session) say(line string) Object {
	object, err := s.kernel.Say(line)
	if err != nil {
		s.Fatal(err)
	}
	return object
}

// exchange is one request there and one reply back, which is accepted.
func (s *session) exchange() Object {
	request, err := s.kernel.Frame("read p 0")
	if err != nil {
		s.Fatal(err)
	}
	answer := s.server.answer(request)
	s.capture = append(s.capture, "> "+hex.EncodeToString(request), "< "+hex.EncodeToString(answer))
	written, err := s.kernel.Write(answer)
	if err != nil || written.Result != 0 {
		s.Fatal(written, err)
	}
	return written
}

func mounted(t *testing.T) *session {
	kernel, err := Kernel()
	if err != nil {
		t.Fatal(err)
	}
	t.Cleanup(func() { kernel.Close() })
	s := &session{T: t, kernel: kernel}
	s.say("mount")
	s.exchange()
	return s
}

func TestWhatTheKernelCountsIsForgotten(t *testing.T) {
	s := mounted(t)
	s.say("call stat /a")
	s.exchange()
	if answered := s.exchange(); len(answered.Answers) != 1 || answered.Answers[0].Size != 5 {
		t.Fatal(answered)
	}
	s.say("drop 1 a")
	if evicted := s.say("evict 2"); evicted.Count != s.server.lookups {
		t.Fatal(evicted)
	}
	forget, err := s.kernel.Frame("read f 1")
	if s.server.answer(forget); err != nil || s.server.lookups != 0 {
		t.Fatal(err, s.server.lookups)
	}
	if _, err := s.kernel.Say("fly"); err == nil {
		t.Fatal("a line that is none has no error")
	}
}

func TestSessionIsJudged(t *testing.T) {
	s := mounted(t)
	s.say("call stat /b")
	s.exchange()
	if faults, err := Check(s.capture); err != nil || len(faults) != 0 {
		t.Fatal(faults, err)
	}
	faults, err := Check(append(s.capture, s.capture[3]))
	if err != nil || len(faults) == 0 || faults[len(faults)-1].Rule != "second reply" {
		t.Fatal(faults, err)
	}
	if _, err := Check([]string{"? 00"}); err == nil {
		t.Fatal("a line that is none has no error")
	}
}

func TestServerIsDriven(t *testing.T) {
	lines, err := Drive([]string{"call stat /b"}, new(server).serve)
	if err != nil || lines[len(lines)-1] != "answers 1 differ 0" {
		t.Fatal(lines, err)
	}
	lines, err = Drive([]string{"call stat /"}, (&server{twice: true}).serve, "--calls")
	for _, line := range lines {
		if line == "second reply: INIT 2" {
			return
		}
	}
	t.Fatal(lines, err)
}
