package ipcd

// The vectors of the protocol: each method sends the bytes of its request, and reads its reply. A false server at the
// other end of a pipe compares and answers.

import (
	"bytes"
	"context"
	"encoding/binary"
	"encoding/hex"
	"encoding/json"
	"errors"
	"fmt"
	"io"
	"net"
	"net/url"
	"os"
	"strconv"
	"strings"
	"syscall"
	"testing"
	"time"
)

type row struct {
	Request, Bytes, Reply string
	ReplyBytes            string `json:"reply_bytes"`
}

var constants = map[string]uint64{"IPC_CREAT": IPC_CREAT, "IPC_EXCL": IPC_EXCL, "IPC_NOWAIT": IPC_NOWAIT,
	"MSG_NOERROR": MSG_NOERROR, "MSG_EXCEPT": MSG_EXCEPT, "SEM_UNDO": SEM_UNDO, "SHM_RDONLY": SHM_RDONLY,
	"O_RDONLY": O_RDONLY, "O_WRONLY": O_WRONLY, "O_RDWR": O_RDWR, "O_CREAT": O_CREAT, "O_EXCL": O_EXCL,
	"O_TRUNC": O_TRUNC, "O_NONBLOCK": O_NONBLOCK, "none": noTime}

var names = map[string]syscall.Errno{"EPERM": syscall.EPERM, "ENOENT": syscall.ENOENT, "EINTR": syscall.EINTR,
	"EIO": syscall.EIO, "E2BIG": syscall.E2BIG, "EBADF": syscall.EBADF, "EAGAIN": syscall.EAGAIN,
	"ENOMEM": syscall.ENOMEM, "EACCES": syscall.EACCES, "EBUSY": syscall.EBUSY, "EEXIST": syscall.EEXIST,
	"EINVAL": syscall.EINVAL, "ENFILE": syscall.ENFILE, "EMFILE": syscall.EMFILE, "EFBIG": syscall.EFBIG,
	"ENOSPC": syscall.ENOSPC, "ERANGE": syscall.ERANGE, "ENAMETOOLONG": syscall.ENAMETOOLONG,
	"ENOMSG": syscall.ENOMSG, "EIDRM": syscall.EIDRM, "EPROTO": syscall.EPROTO, "EOVERFLOW": syscall.EOVERFLOW,
	"EMSGSIZE": syscall.EMSGSIZE, "ETIMEDOUT": syscall.ETIMEDOUT, "EALREADY": syscall.EALREADY}

// words are the fields of a request or a reply, by their names.
type words map[string]string

func wordsOf(text string) words {
	found := words{}
	for _, word := range strings.Split(text, " ")[0:] {
		name, value, _ := strings.Cut(word, "=")
		found[name] = value
	}
	return found
}

func number(text string) uint64 {
	var total uint64
	for _, part := range strings.Split(text, "|") {
		value, is := constants[part]
		if !is {
			base := 10
			if len(part) > 1 && part[0] == '0' {
				base = 8
			}
			signed, err := strconv.ParseInt(part, base, 64)
			if value = uint64(signed); err != nil {
				if value, err = strconv.ParseUint(part, base, 64); err != nil {
					panic(err)
				}
			}
		}
		total |= value
	}
	return total
}

func (w words) n(name string) uint64   { return number(w.get(name)) }
func (w words) u32(name string) uint32 { return uint32(w.n(name)) }
func (w words) i32(name string) int32  { return int32(w.n(name)) }

func (w words) get(name string) string {
	text, is := w[name]
	if !is {
		panic("no field " + name)
	}
	return text
}

func (w words) text(name string) []byte {
	plain, err := url.PathUnescape(w.get(name))
	if err != nil {
		panic(err)
	}
	return []byte(plain)
}

func (w words) list(name string) [][]uint64 {
	var found [][]uint64
	for _, one := range strings.Split(w.get(name), ",") {
		var numbers []uint64
		for _, part := range strings.Split(one, ":") {
			if part != "" {
				numbers = append(numbers, number(part))
			}
		}
		if numbers != nil {
			found = append(found, numbers)
		}
	}
	return found
}

func (w words) moment(name string) time.Time {
	if w.get(name) == "none" {
		return time.Time{}
	}
	return time.UnixMilli(int64(w.n(name)))
}

func (w words) operations() []Op {
	found := []Op{}
	for _, it := range w.list("operations") {
		found = append(found, Op{uint16(it[0]), int16(it[1]), uint16(it[2])})
	}
	return found
}

func (w words) values() []uint16 {
	found := []uint16{}
	for _, it := range w.list("values") {
		found = append(found, uint16(it[0]))
	}
	return found
}

// said is a reply in words in which each number is decimal and each text in hexadecimal digits.
func said(reply string) string {
	if reply == "ok" || !strings.Contains(reply, "=") {
		return reply
	}
	var found []string
	for _, word := range strings.Split(reply, " ") {
		name, _, is := strings.Cut(word, "=")
		switch w := wordsOf(word); {
		case !is:
			found = append(found, word)
		case name == "text" || name == "bytes":
			found = append(found, fmt.Sprintf("%s=%x", name, w.text(name)))
		case name == "values":
			found = append(found, fmt.Sprintf("values=%d", w.values()))
		default:
			found = append(found, fmt.Sprintf("%s=%d", name, int64(w.n(name))))
		}
	}
	return strings.Join(found, " ")
}

// get is a reply in such words, by a format for its fields.
func get[T any](p *Pending[T], shown func(T) string) (string, error) {
	ctx, cancel := context.WithTimeout(context.Background(), 20*time.Second)
	defer cancel()
	value, err := p.Wait(ctx)
	if err != nil {
		return "", err
	}
	return shown(value), nil
}

func ok(p *Pending[None]) (string, error) { return get(p, func(None) string { return "ok" }) }

func one(name string, p *Pending[uint32]) (string, error) {
	return get(p, func(it uint32) string { return fmt.Sprintf("%s=%d", name, it) })
}

func greeting(c *Conn, p *Pending[uint32]) (string, error) {
	found, err := one("pid", p)
	if version := c.Version(); version != 0 {
		found += fmt.Sprintf(" version=%d", version)
	}
	return found, err
}

func raw(p *Pending[[]byte]) (string, error) {
	return get(p, func(it []byte) string { return fmt.Sprintf("bytes=%x", it) })
}

func attr(p *Pending[Attr]) (string, error) {
	return get(p, func(it Attr) string {
		return fmt.Sprintf("flags=%d maxmsg=%d msgsize=%d curmsgs=%d", it.Flags, it.Maxmsg, it.Msgsize, it.Curmsgs)
	})
}

func owner(key int32, o Owner) string {
	return fmt.Sprintf("key=%d uid=%d gid=%d cuid=%d cgid=%d mode=%d", key, o.UID, o.GID, o.CreatorUID, o.CreatorGID,
		o.Mode)
}

var calls = map[string]func(c *Conn, w words) (string, error){
	"hello":     func(c *Conn, w words) (string, error) { return greeting(c, c.Hello(w.u32("uid"), w.u32("gid"))) },
	"interrupt": func(c *Conn, w words) (string, error) { return ok(c.Interrupt()) },
	"close":     func(c *Conn, w words) (string, error) { return ok(c.CloseFd(w.u32("fd"))) },
	"msgget": func(c *Conn, w words) (string, error) {
		return one("identifier", c.Msgget(w.i32("key"), w.u32("flags")))
	},
	"msgsnd": func(c *Conn, w words) (string, error) {
		return ok(c.Msgsnd(w.u32("id"), int64(w.n("type")), w.text("text"), w.u32("flags")))
	},
	"msgrcv": func(c *Conn, w words) (string, error) {
		p := c.Msgrcv(w.u32("id"), w.u32("size"), int64(w.n("type")), w.u32("flags"))
		return get(p, func(it Message) string { return fmt.Sprintf("type=%d text=%x", it.Type, it.Text) })
	},
	"msgctl_stat": func(c *Conn, w words) (string, error) {
		return get(c.MsgctlStat(w.u32("id")), func(it QueueStat) string {
			times := fmt.Sprintf(" stime=%d rtime=%d ctime=%d lspid=%d lrpid=%d", it.Stime, it.Rtime, it.Ctime, it.Lspid,
				it.Lrpid)
			rest := fmt.Sprintf(" qbytes=%d qnum=%d cbytes=%d", it.Qbytes, it.Messages, it.Bytes)
			return owner(it.Key, it.Owner) + times + rest
		})
	},
	"msgctl_set": func(c *Conn, w words) (string, error) {
		return ok(c.MsgctlSet(w.u32("id"), w.u32("uid"), w.u32("gid"), w.u32("mode"), w.u32("qbytes")))
	},
	"msgctl_rmid": func(c *Conn, w words) (string, error) { return ok(c.MsgctlRmid(w.u32("id"))) },
	"semget": func(c *Conn, w words) (string, error) {
		return one("identifier", c.Semget(w.i32("key"), w.i32("nsems"), w.u32("flags")))
	},
	"semop": func(c *Conn, w words) (string, error) {
		length := Forever
		if w.get("timeout") != "none" {
			length = time.Duration(w.n("timeout")) * time.Millisecond
		}
		return ok(c.Semop(w.u32("id"), w.operations(), length))
	},
	"semctl_getval": func(c *Conn, w words) (string, error) {
		return one("value", c.SemctlGetval(w.u32("id"), w.u32("num")))
	},
	"semctl_getpid": func(c *Conn, w words) (string, error) {
		return one("pid", c.SemctlGetpid(w.u32("id"), w.u32("num")))
	},
	"semctl_getncnt": func(c *Conn, w words) (string, error) {
		return one("count", c.SemctlGetncnt(w.u32("id"), w.u32("num")))
	},
	"semctl_getzcnt": func(c *Conn, w words) (string, error) {
		return one("count", c.SemctlGetzcnt(w.u32("id"), w.u32("num")))
	},
	"semctl_setval": func(c *Conn, w words) (string, error) {
		return ok(c.SemctlSetval(w.u32("id"), w.u32("num"), w.i32("value")))
	},
	"semctl_getall": func(c *Conn, w words) (string, error) {
		return get(c.SemctlGetall(w.u32("id")), func(it []uint16) string { return fmt.Sprintf("values=%d", it) })
	},
	"semctl_setall": func(c *Conn, w words) (string, error) { return ok(c.SemctlSetall(w.u32("id"), w.values())) },
	"semctl_stat": func(c *Conn, w words) (string, error) {
		return get(c.SemctlStat(w.u32("id")), func(it SetStat) string {
			return owner(it.Key, it.Owner) + fmt.Sprintf(" otime=%d ctime=%d nsems=%d", it.Otime, it.Ctime, it.Nsems)
		})
	},
	"semctl_set": func(c *Conn, w words) (string, error) {
		return ok(c.SemctlSet(w.u32("id"), w.u32("uid"), w.u32("gid"), w.u32("mode")))
	},
	"semctl_rmid": func(c *Conn, w words) (string, error) { return ok(c.SemctlRmid(w.u32("id"))) },
	"mq_open": func(c *Conn, w words) (string, error) {
		limits := &Limits{w.i32("maxmsg"), w.i32("msgsize")}
		if w.n("attr") == 0 {
			limits = nil
		}
		return one("fd", c.MqOpen(string(w.text("name")), w.u32("flags"), w.u32("mode"), limits))
	},
	"mq_unlink": func(c *Conn, w words) (string, error) { return ok(c.MqUnlink(string(w.text("name")))) },
	"mq_send": func(c *Conn, w words) (string, error) {
		return ok(c.MqSend(w.u32("fd"), w.text("text"), w.u32("priority"), w.moment("deadline")))
	},
	"mq_receive": func(c *Conn, w words) (string, error) {
		return get(c.MqReceive(w.u32("fd"), w.u32("size"), w.moment("deadline")), func(it PosixMessage) string {
			return fmt.Sprintf("priority=%d text=%x", it.Priority, it.Text)
		})
	},
	"mq_notify": func(c *Conn, w words) (string, error) {
		return ok(c.MqNotify(w.u32("fd"), w.u32("kind"), w.u32("cookie")))
	},
	"mq_getattr": func(c *Conn, w words) (string, error) { return attr(c.MqGetattr(w.u32("fd"))) },
	"mq_setattr": func(c *Conn, w words) (string, error) { return attr(c.MqSetattr(w.u32("fd"), w.u32("flags"))) },
	"sem_open": func(c *Conn, w words) (string, error) {
		return one("fd", c.SemOpen(string(w.text("name")), w.u32("flags"), w.u32("mode"), w.u32("value")))
	},
	"sem_unlink":   func(c *Conn, w words) (string, error) { return ok(c.SemUnlink(string(w.text("name")))) },
	"sem_post":     func(c *Conn, w words) (string, error) { return ok(c.SemPost(w.u32("fd"))) },
	"sem_wait":     func(c *Conn, w words) (string, error) { return ok(c.SemWait(w.u32("fd"), w.moment("deadline"))) },
	"sem_trywait":  func(c *Conn, w words) (string, error) { return ok(c.SemTrywait(w.u32("fd"))) },
	"sem_getvalue": func(c *Conn, w words) (string, error) { return one("value", c.SemGetvalue(w.u32("fd"))) },
	"shm_open": func(c *Conn, w words) (string, error) {
		return one("fd", c.ShmOpen(string(w.text("name")), w.u32("flags"), w.u32("mode")))
	},
	"shm_unlink": func(c *Conn, w words) (string, error) { return ok(c.ShmUnlink(string(w.text("name")))) },
	"ftruncate":  func(c *Conn, w words) (string, error) { return ok(c.Ftruncate(w.u32("fd"), w.n("length"))) },
	"shm_read": func(c *Conn, w words) (string, error) {
		return raw(c.ShmRead(w.u32("fd"), w.n("offset"), w.u32("length")))
	},
	"shm_write": func(c *Conn, w words) (string, error) {
		return ok(c.ShmWrite(w.u32("fd"), w.n("offset"), w.text("bytes")))
	},
	"shm_stat": func(c *Conn, w words) (string, error) {
		return get(c.ShmStat(w.u32("fd")), func(it ShmStat) string {
			return fmt.Sprintf("length=%d uid=%d gid=%d mode=%d", it.Length, it.UID, it.GID, it.Mode)
		})
	},
	"shmget": func(c *Conn, w words) (string, error) {
		return one("identifier", c.Shmget(w.i32("key"), w.n("size"), w.u32("flags")))
	},
	"shmat": func(c *Conn, w words) (string, error) { return one("attachment", c.Shmat(w.u32("id"), w.u32("flags"))) },
	"shmdt": func(c *Conn, w words) (string, error) { return ok(c.Shmdt(w.u32("attachment"))) },
	"shmctl_stat": func(c *Conn, w words) (string, error) {
		return get(c.ShmctlStat(w.u32("id")), func(it SegmentStat) string {
			return owner(it.Key, it.Owner) + fmt.Sprintf(" atime=%d dtime=%d ctime=%d cpid=%d lpid=%d nattch=%d segsz=%d",
				it.Atime, it.Dtime, it.Ctime, it.Cpid, it.Lpid, it.Nattch, it.Size)
		})
	},
	"shmctl_set": func(c *Conn, w words) (string, error) {
		return ok(c.ShmctlSet(w.u32("id"), w.u32("uid"), w.u32("gid"), w.u32("mode")))
	},
	"shmctl_rmid": func(c *Conn, w words) (string, error) { return ok(c.ShmctlRmid(w.u32("id"))) },
	"attached_read": func(c *Conn, w words) (string, error) {
		return raw(c.AttachedRead(w.u32("attachment"), w.n("offset"), w.u32("length")))
	},
	"attached_write": func(c *Conn, w words) (string, error) {
		return ok(c.AttachedWrite(w.u32("attachment"), w.n("offset"), w.text("bytes")))
	},
}

// answers reads one request, compares all of it but its serial, and writes a reply with that serial.
func answers(server net.Conn, wanted, reply []byte) error {
	head := make([]byte, 4)
	if _, err := io.ReadFull(server, head); err != nil {
		return err
	}
	rest := make([]byte, binary.BigEndian.Uint32(head))
	if _, err := io.ReadFull(server, rest); err != nil {
		return err
	}
	found := append(append([]byte{}, head...), rest[4:]...)
	if wanted != nil && !bytes.Equal(found, append(append([]byte{}, wanted[:4]...), wanted[8:]...)) {
		return fmt.Errorf("it sends %x, and not %x", found, wanted)
	}
	if binary.BigEndian.Uint32(reply[4:]) != 0 {
		copy(reply[4:], rest[:4])
	}
	_, err := server.Write(reply)
	return err
}

func tryRow(it row) error {
	ours, theirs := net.Pipe()
	c := newConn(ours)
	defer c.Close()
	wanted, err := hex.DecodeString(it.Bytes)
	if err != nil {
		return err
	}
	reply, err := hex.DecodeString(it.ReplyBytes)
	if err != nil {
		return err
	}
	call, _, _ := strings.Cut(it.Request, " ")
	isUnasked := it.Request == ""
	if isUnasked {
		_, err := theirs.Write(reply)
		if err != nil {
			return err
		}
		told, err := c.Notification(context.Background())
		if found := fmt.Sprintf("notification fd=%d cookie=%d", told.Fd, told.Cookie); err != nil || found != said(it.Reply) {
			return fmt.Errorf("%s, %v", found, err)
		}
		return nil
	}
	if call == "frame" { // no client sends it: another request is answered so
		call, wanted = "interrupt", nil
	}
	compared := make(chan error, 1)
	go func() {
		err := answers(theirs, wanted, reply)
		if err != nil {
			theirs.Close() // so that the client does not wait for a reply
		}
		compared <- err
	}()
	found, err := calls[call](c, wordsOf(it.Request))
	if different := <-compared; different != nil {
		return different
	}
	refusal, isRefused := names[it.Reply]
	var refused *Error
	var ended *Ended
	switch {
	case !isRefused && err == nil && found == said(it.Reply):
		return nil
	case isRefused && (it.Reply == "EPROTO" || it.Reply == "EIO") && errors.As(err, &ended) && errors.Is(err, refusal):
		return nil
	case isRefused && errors.As(err, &refused) && refused.Errno == refusal:
		return nil
	}
	return fmt.Errorf("it reads %q, %v, and not %q", found, err, said(it.Reply))
}

func TestVectors(t *testing.T) {
	data, err := os.ReadFile("../../docs/vectors.json")
	if err != nil {
		t.Fatal(err)
	}
	var rows []row
	if err := json.Unmarshal(data, &rows); err != nil {
		t.Fatal(err)
	}
	tried := map[string]bool{}
	for i, it := range rows {
		if err := tryRow(it); err != nil {
			t.Errorf("row %d, %s: %v", i, it.Request, err)
		}
		call, _, _ := strings.Cut(it.Request, " ")
		tried[call] = true
	}
	for call := range calls {
		if !tried[call] {
			t.Errorf("no row has %s", call)
		}
	}
	if len(rows) < 150 {
		t.Errorf("%d rows are few", len(rows))
	}
}

// What no server sends: the client ends the connection. Each is the answer to a msgget of serial 1.
var strange = []string{"0000000a0000000200000000000001", "000000090000000100000000ff", "0000000b00000001000000000001ff",
	"0000000a0000000100110000000b", "00000005000000010000", "00010101000000010000", "000000070000000000000000"}

func TestStrangeReplies(t *testing.T) {
	for _, digits := range strange {
		reply, err := hex.DecodeString(digits)
		if err != nil {
			t.Fatal(err)
		}
		ours, theirs := net.Pipe()
		c := newConn(ours)
		go func() {
			io.ReadFull(theirs, make([]byte, 17))
			theirs.Write(reply)
		}()
		ctx, cancel := context.WithTimeout(context.Background(), 20*time.Second)
		if found, err := c.Msgget(1, 0).Wait(ctx); !errors.Is(err, ErrProtocol) {
			t.Errorf("%s: %v, %v, and not the end", digits, found, err)
		}
		if _, err := c.Interrupt().Wait(ctx); !errors.Is(err, ErrProtocol) {
			t.Errorf("%s: a call after the end: %v", digits, err)
		}
		cancel()
		theirs.Close()
	}
}

// greetings are bodies of replies to HELLO, and what each says; one without a pid is none. Nobody knows yet what comes
// after the version.
var greetings = map[string]string{"": "", "000007": "", "00000007": "pid=7", "0000000700": "pid=7",
	"00000007000000": "pid=7", "0000000700000003": "pid=7 version=3", "00000007000000040a0b0c0d0e": "pid=7 version=4"}

func TestGreetings(t *testing.T) {
	for digits, wanted := range greetings {
		body, err := hex.DecodeString(digits)
		if err != nil {
			t.Fatal(err)
		}
		reply := append([]byte{0, 0, 0, byte(6 + len(body)), 0, 0, 0, 1, 0, 0}, body...)
		ours, theirs := net.Pipe()
		c := newConn(ours)
		go func() {
			io.ReadFull(theirs, make([]byte, 17))
			theirs.Write(reply)
		}()
		found, err := greeting(c, c.Hello(1000, 100))
		if found != wanted || (wanted == "") != errors.Is(err, ErrProtocol) {
			t.Errorf("%s: %q, %v, and not %q", digits, found, err, wanted)
		}
		c.Close()
		theirs.Close()
	}
}
