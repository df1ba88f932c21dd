package fuseworld

import (
	"bytes"
	"encoding/binary"
	"io"
	"net"
)

const enoent, enosys = 2, 38

var little = binary.LittleEndian

// reply is struct fuse_out_header and a body.
func reply(unique uint64, number int32, body ...any) []byte {
	var rest, frame bytes.Buffer
	for _, part := range body {
		binary.Write(&rest, little, part)
	}
	binary.Write(&frame, little, struct {
		Len    uint32
		Error  int32
		Unique uint64
	}{uint32(16 + rest.Len()), -number, unique})
	return append(frame.Bytes(), rest.Bytes()...)
}

// attributes is struct fuse_attr: the root is a directory, node 2 a file of 5 bytes.
func attributes(node uint64) (attr struct {
	Ino, Size   uint64
	Free        [11]uint32
	Mode, Nlink uint32
	Rest        [5]uint32
}) {
	attr.Ino, attr.Size, attr.Mode, attr.Nlink = node, 5, 0o100644, 1
	if node == 1 {
		attr.Size, attr.Mode = 0, 0o040755
	}
	return attr
}

// server is what a server's author writes. With twice each reply is sent twice.
type server struct {
	lookups uint64
	twice   bool
}

// answer is the reply to a request; none to a FORGET.
func (s *server) answer(frame []byte) []byte {
	opcode, unique, node, body := little.Uint32(frame[4:]), little.Uint64(frame[8:]), little.Uint64(frame[16:]), frame[40:]
	switch {
	case opcode == 26:
		return reply(unique, 0, [16]uint32{7, 31, 0, 1, 0, 4096, 1})
	case opcode == 1 && string(body) == "a\x00":
		s.lookups++
		return reply(unique, 0, [5]uint64{2, 1, 1, 1, 0}, attributes(2))
	case opcode == 1:
		return reply(unique, enoent)
	case opcode == 3:
		return reply(unique, 0, [2]uint64{1, 0}, attributes(node))
	case opcode == 2:
		s.lookups -= little.Uint64(body)
		return nil
	}
	return reply(unique, enosys)
}

// serve serves a connection until it ends.
func (s *server) serve(connection net.Conn) {
	defer connection.Close()
	for {
		frame := make([]byte, 4)
		if _, err := io.ReadFull(connection, frame); err != nil {
			return
		}
		frame = append(frame, make([]byte, little.Uint32(frame)-4)...)
		if _, err := io.ReadFull(connection, frame[4:]); err != nil {
			return
		}
		answer := s.answer(frame)
		if s.twice {
			answer = append(answer, answer...)
		}
		if _, err := connection.Write(answer); err != nil {
			return
		}
	}
}
