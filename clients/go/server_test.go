package ipcd

// Calls on a server: each family, a wait that is woken, deadlines, an interrupt, requests sent ahead, and kills of the
// server. IPCD_PROGRAM names the program.

import (
	"bufio"
	"context"
	"errors"
	"fmt"
	"os"
	"os/exec"
	"path/filepath"
	"syscall"
	"testing"
	"time"
)

type server struct {
	t       *testing.T
	folder  string
	process *exec.Cmd
}

// start serves a small device in a folder of its own. It is of version 2, if format gets no other words.
func start(t *testing.T, words ...string) *server {
	program := os.Getenv("IPCD_PROGRAM")
	if program == "" {
		t.Fatal("IPCD_PROGRAM names no program")
	}
	s := &server{t: t, folder: t.TempDir()}
	format := exec.Command(program, append([]string{"format", "--small", "device"}, words...)...)
	format.Dir = s.folder
	if said, err := format.CombinedOutput(); err != nil {
		t.Fatalf("%s %v", said, err)
	}
	s.serve()
	t.Cleanup(s.kill)
	return s
}

func (s *server) serve() {
	s.process = exec.Command(os.Getenv("IPCD_PROGRAM"), "serve", "device", "socket")
	s.process.Dir = s.folder
	output, err := s.process.StdoutPipe()
	if err == nil {
		err = s.process.Start()
	}
	if err == nil {
		_, err = bufio.NewReader(output).ReadString('\n')
	}
	if err != nil {
		s.t.Fatal(err)
	}
}

func (s *server) kill() {
	s.process.Process.Kill()
	s.process.Wait()
	os.Remove(filepath.Join(s.folder, "socket"))
}

// connect is a new connection, which is a process.
func (s *server) connect() *Conn {
	c, err := Dial(filepath.Join(s.folder, "socket"))
	if err != nil {
		s.t.Fatal(err)
	}
	s.t.Cleanup(func() { c.Close() })
	has(s.t, c.Hello(1000, 100))
	return c
}

func limited() context.Context {
	ctx, cancel := context.WithCancel(context.Background())
	time.AfterFunc(time.Minute, cancel)
	return ctx
}

// has is the result of a call that is not refused.
func has[T any](t *testing.T, p *Pending[T]) T {
	t.Helper()
	value, err := p.Wait(limited())
	if err != nil {
		t.Fatal(err)
	}
	return value
}

func refused[T any](t *testing.T, p *Pending[T], wanted error) {
	t.Helper()
	if _, err := p.Wait(limited()); !errors.Is(err, wanted) {
		t.Fatalf("%v, and not %v", err, wanted)
	}
}

func equal(t *testing.T, found, wanted any) {
	t.Helper()
	if fmt.Sprint(found) != fmt.Sprint(wanted) {
		t.Fatalf("%v, and not %v", found, wanted)
	}
}

func TestEachFamily(t *testing.T) {
	c := start(t).connect()
	equal(t, c.Version(), 0)
	queue := has(t, c.Msgget(1234, IPC_CREAT|0o600))
	has(t, c.Msgsnd(queue, 5, []byte("hi"), 0))
	equal(t, has(t, c.Msgrcv(queue, 64, 0, 0)), Message{5, []byte("hi")})
	refused(t, c.Msgrcv(queue, 64, 0, IPC_NOWAIT), syscall.ENOMSG)
	set := has(t, c.Semget(5, 2, IPC_CREAT|0o600))
	has(t, c.SemctlSetall(set, []uint16{1, 5}))
	has(t, c.Semop(set, []Op{{0, -1, SEM_UNDO}, {1, -2, 0}}, Forever))
	equal(t, has(t, c.SemctlGetall(set)), []uint16{0, 3})
	jobs := has(t, c.MqOpen("/jobs", O_CREAT|O_RDWR, 0o600, &Limits{2, 64}))
	has(t, c.MqNotify(jobs, NOTIFY_FRAME, 7))
	has(t, c.MqSend(jobs, []byte("sweep"), 9, time.Time{}))
	told, err := c.Notification(limited())
	equal(t, fmt.Sprint(told, err), fmt.Sprint(Notification{jobs, 7}, nil))
	equal(t, has(t, c.MqReceive(jobs, 64, time.Time{})), PosixMessage{9, []byte("sweep")})
	ready := has(t, c.SemOpen("/ready", O_CREAT, 0o600, 0))
	has(t, c.SemPost(ready))
	has(t, c.SemWait(ready, time.Time{}))
	equal(t, has(t, c.SemGetvalue(ready)), 0)
	table := has(t, c.ShmOpen("/table", O_CREAT|O_RDWR, 0o600))
	has(t, c.Ftruncate(table, 64))
	has(t, c.ShmWrite(table, 8, []byte("row")))
	equal(t, has(t, c.ShmRead(table, 7, 4)), []byte("\x00row"))
	shared := has(t, c.Shmat(has(t, c.Shmget(9, 64, IPC_CREAT|0o600)), 0))
	has(t, c.AttachedWrite(shared, 8, []byte("old")))
	equal(t, has(t, c.AttachedRead(shared, 8, 3)), []byte("old"))
	has(t, c.Shmdt(shared))
	refused(t, c.ShmStat(9), syscall.EBADF)
	// The longest request that a server reads, and one that would end the connection.
	refused(t, c.Msgsnd(queue, 1, make([]byte, 65792-21), 0), syscall.EINVAL)
	refused(t, c.Msgsnd(queue, 1, make([]byte, 65793-21), 0), syscall.EINVAL)
}

// The server tells its version, and the calls are as ever.
func TestVersion3(t *testing.T) {
	s := start(t, "--journal", "257")
	c, err := Dial(filepath.Join(s.folder, "socket"))
	if err != nil {
		t.Fatal(err)
	}
	defer c.Close()
	equal(t, c.Version(), 0)
	equal(t, has(t, c.Hello(1000, 100)), 1)
	equal(t, c.Version(), 3)
	queue := has(t, c.Msgget(1234, IPC_CREAT|0o600))
	has(t, c.Msgsnd(queue, 5, []byte("hi"), 0))
	equal(t, has(t, c.Msgrcv(queue, 64, 0, 0)), Message{5, []byte("hi")})
}

// waits sees that a call of this connection waits: the next one is EALREADY.
func waits(t *testing.T, c *Conn) {
	t.Helper()
	refused(t, c.MsgctlStat(1), syscall.EALREADY)
}

func TestWaits(t *testing.T) {
	s := start(t)
	c, other := s.connect(), s.connect()
	queue := has(t, c.Msgget(1, IPC_CREAT|0o600))
	waiting := c.Msgrcv(queue, 64, 3, 0)
	waits(t, c)
	has(t, other.Msgsnd(queue, 3, []byte("go"), 0))
	equal(t, has(t, waiting), Message{3, []byte("go")})

	// A context that ends interrupts the call. What came first is answered all the same.
	ctx, cancel := context.WithCancel(context.Background())
	waiting = c.Msgrcv(queue, 64, 0, 0)
	waits(t, c)
	cancel()
	if _, err := waiting.Wait(ctx); !errors.Is(err, context.Canceled) {
		t.Fatalf("%v, and not that it is cancelled", err)
	}
	waiting = c.Msgrcv(queue, 64, 0, 0)
	waits(t, c)
	has(t, other.Msgsnd(queue, 4, []byte("first"), 0))
	<-waiting.answer.done
	if found, err := waiting.Wait(ctx); err != nil || string(found.Text) != "first" {
		t.Fatalf("%v, %v: the message is lost", found, err)
	}
	waiting = c.Msgrcv(queue, 64, 0, 0)
	waits(t, c)
	has(t, c.Interrupt())
	refused(t, waiting, syscall.EINTR)

	// The server itself ends a call at its deadline, and a list of operations after its timeout.
	jobs := has(t, c.MqOpen("/jobs", O_CREAT|O_RDWR, 0o600, nil))
	begin := time.Now()
	refused(t, c.MqReceive(jobs, 64, begin.Add(200*time.Millisecond)), syscall.ETIMEDOUT)
	set := has(t, c.Semget(1, 1, IPC_CREAT|0o600))
	refused(t, c.Semop(set, []Op{{0, -1, 0}}, 200*time.Millisecond), syscall.EAGAIN)
	if took := time.Since(begin); took < 390*time.Millisecond {
		t.Fatalf("two waits of 200 ms took %v", took)
	}
	waiting = c.Msgrcv(queue, 64, 0, 0)
	waits(t, c)
	has(t, other.MsgctlRmid(queue))
	refused(t, waiting, syscall.EIDRM)
}

// After each kill all that was answered is there, in its order, and at most what was sent.
func TestKills(t *testing.T) {
	s := start(t)
	for round, kill := range []int{1, 7, 30, 60, 99} {
		c := s.connect()
		queue := has(t, c.Msgget(int32(round+1), IPC_CREAT|0o600))
		var sent []*Pending[None]
		for kind := 1; kind <= 100; kind++ {
			sent = append(sent, c.Msgsnd(queue, int64(kind), nil, IPC_NOWAIT))
		}
		for _, it := range sent[:kill] {
			has(t, it)
		}
		s.kill()
		answered := kill
		for _, it := range sent[kill:] {
			_, err := it.Wait(limited())
			var ended *Ended
			if err == nil {
				answered++
			} else if !errors.As(err, &ended) {
				t.Fatalf("%v, and not the end of the connection", err)
			}
		}
		var ended *Ended
		if _, err := c.Interrupt().Wait(limited()); !errors.As(err, &ended) {
			t.Fatalf("%v, and not the end of the connection", err)
		}
		s.serve()
		c = s.connect()
		queue = has(t, c.Msgget(int32(round+1), 0))
		found := 0
		for {
			message, err := c.Msgrcv(queue, 64, 0, IPC_NOWAIT).Wait(limited())
			if errors.Is(err, syscall.ENOMSG) {
				break
			}
			if found++; err != nil || message.Type != int64(found) {
				t.Fatalf("message %d is %v, %v", found, message, err)
			}
		}
		if found < answered || found > len(sent) {
			t.Fatalf("%d were answered and %d sent, and %d are there", answered, len(sent), found)
		}
		has(t, c.MsgctlRmid(queue))
	}
}
