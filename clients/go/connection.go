// Package ipcd is a client of an ipcd server: System V and POSIX IPC objects that survive crashes. The file README.md
// has a first session; docs/PROTOCOL.md of the server says what each call means.
package ipcd

import (
	"bytes"
	"context"
	"encoding/binary"
	"errors"
	"fmt"
	"io"
	"net"
	"sync"
	"syscall"
	"time"
)

// Error is a refused call: the name of the call, and the error number of its manual page. errors.Is finds the number.
type Error struct {
	Call  string
	Errno syscall.Errno
}

func (e *Error) Error() string { return e.Call + ": " + e.Errno.Error() }
func (e *Error) Unwrap() error { return e.Errno }

// Ended is the end of a connection. A request without a reply was maybe done, and maybe not. Cause is io.EOF if the
// server has ended the stream, EPROTO or EIO if that was its last frame, and ErrProtocol for what no server sends.
type Ended struct{ Cause error }

func (e *Ended) Error() string { return "ipcd: the connection has ended: " + e.Cause.Error() }
func (e *Ended) Unwrap() error { return e.Cause }

// ErrProtocol is a frame that the protocol does not have.
var ErrProtocol = errors.New("a frame that is no reply")

// Patience is how long the replies to an interrupted call and to its INTERRUPT may take.
const Patience = 30 * time.Second

const (
	longestFrame = 65792
	noTime       = 1<<64 - 1
)

// What a request that no frame can carry is refused, as its manual page has it.
var tooLong = map[byte]syscall.Errno{0x0b: syscall.EINVAL, 0x15: syscall.E2BIG, 0x1c: syscall.EINVAL,
	0x2a: syscall.EMSGSIZE, 0x40: syscall.EINVAL, 0x4d: syscall.EINVAL}

// Notification is what mq_notify(3) asked for: the descriptor that registered, and the cookie.
type Notification struct{ Fd, Cookie uint32 }

// answer is what a request is answered, once done is closed.
type answer struct {
	call string
	done chan struct{}
	body []byte
	err  error
}

// Conn is a connection, which is one process of the server after Hello. Several goroutines may use it. The server has
// one waiting call of a process at a time: further calls are EALREADY meanwhile, so who waits has a connection for it.
type Conn struct {
	socket    net.Conn
	writing   sync.Mutex // requests are written in the order of their serials
	serial    uint32
	lock      sync.Mutex // of what follows
	version   uint32
	asked     map[uint32]*answer
	notified  []Notification
	came      chan struct{} // has one element if notified may have some
	ended     error
	hasEnded  chan struct{}
	closeOnce sync.Once
}

// Dial connects to the socket of a server. Hello comes next.
func Dial(path string) (*Conn, error) {
	socket, err := net.Dial("unix", path)
	if err != nil {
		return nil, err
	}
	return newConn(socket), nil
}

func newConn(socket net.Conn) *Conn {
	c := &Conn{socket: socket, asked: map[uint32]*answer{}, came: make(chan struct{}, 1), hasEnded: make(chan struct{})}
	go c.read()
	return c
}

// Close ends the process: its waiting call is gone, its adjustments are added, its descriptors are closed.
func (c *Conn) Close() error {
	c.end(net.ErrClosed)
	return nil
}

// Notification waits for the next notification.
func (c *Conn) Notification(ctx context.Context) (Notification, error) {
	for {
		c.lock.Lock()
		if len(c.notified) > 0 {
			first := c.notified[0]
			c.notified = c.notified[1:]
			c.lock.Unlock()
			return first, nil
		}
		ended := c.ended
		c.lock.Unlock()
		if ended != nil {
			return Notification{}, ended
		}
		select {
		case <-c.came:
		case <-c.hasEnded:
		case <-ctx.Done():
			return Notification{}, ctx.Err()
		}
	}
}

// read takes frames until the connection ends. It always reads, so a writer never waits for a reader for ever.
func (c *Conn) read() {
	head := make([]byte, 4)
	for {
		if _, err := io.ReadFull(c.socket, head); err != nil {
			c.end(err)
			return
		}
		size := binary.BigEndian.Uint32(head)
		if size < 6 || size > longestFrame {
			c.end(ErrProtocol)
			return
		}
		frame := make([]byte, size)
		if _, err := io.ReadFull(c.socket, frame); err != nil {
			c.end(err)
			return
		}
		serial, number := binary.BigEndian.Uint32(frame), syscall.Errno(binary.BigEndian.Uint16(frame[4:]))
		if err := c.take(serial, number, frame[6:]); err != nil {
			c.end(err)
			return
		}
	}
}

// take hands a frame to whoever waits for it, or says why it is the last.
func (c *Conn) take(serial uint32, number syscall.Errno, body []byte) error {
	if number == syscall.EPROTO || serial == 0 && number != 0 {
		return number
	}
	c.lock.Lock()
	defer c.lock.Unlock()
	if serial == 0 {
		if len(body) != 8 {
			return ErrProtocol
		}
		c.notified = append(c.notified, Notification{binary.BigEndian.Uint32(body), binary.BigEndian.Uint32(body[4:])})
		select {
		case c.came <- struct{}{}:
		default:
		}
		return nil
	}
	to := c.asked[serial]
	if to == nil || number != 0 && len(body) > 0 {
		return ErrProtocol
	}
	delete(c.asked, serial)
	if number != 0 {
		to.err = &Error{to.call, number}
	}
	to.body = body
	close(to.done)
	return nil
}

// end tells all who wait that the connection has ended.
func (c *Conn) end(cause error) {
	c.closeOnce.Do(func() {
		c.socket.Close()
		c.lock.Lock()
		defer c.lock.Unlock()
		c.ended = &Ended{cause}
		for _, to := range c.asked {
			to.err = c.ended
			close(to.done)
		}
		c.asked = nil
		close(c.hasEnded)
	})
}

// send writes a request, and answers what its reply will be.
func (c *Conn) send(call string, opcode byte, fields []any) *answer {
	to := &answer{call: call, done: make(chan struct{})}
	frame := bytes.NewBuffer(append(make([]byte, 8), opcode))
	for _, field := range fields {
		if err := binary.Write(frame, binary.BigEndian, field); err != nil {
			panic(err) // a field of a type that has no size: the calls have none
		}
	}
	data := frame.Bytes()
	if refusal, is := tooLong[opcode]; len(data)-4 > longestFrame {
		if !is {
			refusal = syscall.ENAMETOOLONG
		}
		to.err = &Error{call, refusal}
		close(to.done)
		return to
	}
	c.writing.Lock()
	defer c.writing.Unlock()
	c.lock.Lock()
	if c.ended != nil {
		to.err = c.ended
		close(to.done)
		c.lock.Unlock()
		return to
	}
	if c.serial++; c.serial == 0 {
		c.serial = 1
	}
	c.asked[c.serial] = to
	binary.BigEndian.PutUint32(data, uint32(len(data)-4))
	binary.BigEndian.PutUint32(data[4:], c.serial)
	c.lock.Unlock()
	// If the server has ended the connection, its last frame is still to be read: `read` ends the connection.
	_, err := c.socket.Write(data)
	if err != nil && !errors.Is(err, syscall.EPIPE) && !errors.Is(err, syscall.ECONNRESET) {
		c.end(err)
	}
	return to
}

// Pending is a call that was sent. Several may be sent before the first Wait: their replies come in their order, but
// for that of a call that waits.
type Pending[T any] struct {
	conn   *Conn
	answer *answer
	decode func([]byte) (T, bool)
}

// Wait answers what the call is answered. If the context ends before, it interrupts the call that waits. Then the error
// is that of the context, unless the reply came first: that is answered, so no message is lost.
func (p *Pending[T]) Wait(ctx context.Context) (T, error) {
	var none T
	select {
	case <-p.answer.done:
	case <-ctx.Done():
		p.conn.Interrupt()
		limit := time.AfterFunc(Patience, func() { p.conn.end(fmt.Errorf("no reply within %v", Patience)) })
		<-p.answer.done
		limit.Stop()
		if errors.Is(p.answer.err, syscall.EINTR) {
			return none, fmt.Errorf("%s: %w", p.answer.call, ctx.Err())
		}
	}
	if p.answer.err != nil {
		return none, p.answer.err
	}
	value, is := p.decode(p.answer.body)
	if !is {
		p.conn.end(ErrProtocol)
		return none, &Ended{ErrProtocol}
	}
	return value, nil
}
