//! Calls on a server: each family, a wait that is woken, deadlines, an interrupt, requests sent ahead, and kills of the
//! server. IPCD_PROGRAM names the program.

use std::io::{BufRead, BufReader};
use std::path::PathBuf;
use std::process::{Child, Command, Stdio};
use std::time::{Duration, Instant, SystemTime};

use ipcd::errno::*;
use ipcd::*;

const MINUTE: Duration = Duration::from_secs(60);

/// A server of a small device, in a folder of its own, which goes with it. The device is of version 2, if `format` gets
/// no other words.
struct Server {
    folder: PathBuf,
    process: Child,
}

fn serve(folder: &PathBuf) -> Child {
    let mut command = Command::new(std::env::var("IPCD_PROGRAM").expect("IPCD_PROGRAM names the program"));
    let command = command.current_dir(folder).args(["serve", "device", "socket"]).stdout(Stdio::piped());
    let mut process = command.spawn().unwrap();
    let mut line = String::new();
    BufReader::new(process.stdout.as_mut().unwrap()).read_line(&mut line).unwrap();
    assert!(line.starts_with("serving "), "{line}");
    process
}

impl Server {
    fn new(name: &str, words: &[&str]) -> Server {
        let folder = std::env::temp_dir().join(format!("ipcd-rust-{name}-{}", std::process::id()));
        std::fs::create_dir(&folder).unwrap();
        let program = std::env::var("IPCD_PROGRAM").expect("IPCD_PROGRAM names the program");
        let mut format = Command::new(program);
        let ended = format.current_dir(&folder).args(["format", "--small", "device"]).args(words).output().unwrap();
        assert!(ended.status.success(), "{ended:?}");
        Server { process: serve(&folder), folder }
    }

    fn connect(&self) -> Connection {
        let connection = Connection::connect(self.folder.join("socket")).unwrap();
        connection.hello(1000, 100).wait().unwrap();
        connection
    }

    fn kill(&mut self) {
        self.process.kill().unwrap();
        self.process.wait().unwrap();
        std::fs::remove_file(self.folder.join("socket")).unwrap();
    }
}

impl Drop for Server {
    fn drop(&mut self) {
        let _ = self.process.kill();
        let _ = self.process.wait();
        let _ = std::fs::remove_dir_all(&self.folder);
    }
}

fn refused<T: Body + std::fmt::Debug>(pending: Pending<T>, errno: i32) {
    assert_eq!(pending.wait_for(MINUTE).unwrap_err().errno(), Some(errno));
}

/// A call of this connection waits: the next one is EALREADY.
fn waits(c: &Connection) {
    refused(c.msgctl_stat(1), EALREADY);
}

/// The server tells its version, and the calls are as ever.
#[test]
fn version_3() -> Result<(), Error> {
    let server = Server::new("version", &["--journal", "257"]);
    let c = Connection::connect(server.folder.join("socket")).unwrap();
    assert_eq!(c.version(), None);
    assert_eq!(c.hello(1000, 100).wait()?, 1);
    assert_eq!(c.version(), Some(3));
    let queue = c.msgget(1234, IPC_CREAT | 0o600).wait()?;
    c.msgsnd(queue, 5, b"hi", 0).wait()?;
    assert_eq!(c.msgrcv(queue, 64, 0, 0).wait()?, Message { kind: 5, text: b"hi".to_vec() });
    Ok(())
}

#[test]
fn each_family() -> Result<(), Error> {
    let server = Server::new("family", &[]);
    let c = server.connect();
    assert_eq!(c.version(), None);
    let queue = c.msgget(1234, IPC_CREAT | 0o600).wait()?;
    c.msgsnd(queue, 5, b"hi", 0).wait()?;
    assert_eq!(c.msgrcv(queue, 64, 0, 0).wait()?, Message { kind: 5, text: b"hi".to_vec() });
    refused(c.msgrcv(queue, 64, 0, IPC_NOWAIT), ENOMSG);
    let set = c.semget(5, 2, IPC_CREAT | 0o600).wait()?;
    c.semctl_setall(set, &[1, 5]).wait()?;
    c.semop(set, &[Op { num: 0, op: -1, flags: SEM_UNDO }, Op { num: 1, op: -2, flags: 0 }], None).wait()?;
    assert_eq!(c.semctl_getall(set).wait()?, [0, 3]);
    let jobs = c.mq_open(b"/jobs", O_CREAT | O_RDWR, 0o600, Some(Limits { maxmsg: 2, msgsize: 64 })).wait()?;
    c.mq_notify(jobs, NOTIFY_FRAME, 7).wait()?;
    c.mq_send(jobs, b"sweep", 9, None).wait()?;
    assert_eq!(c.notification(MINUTE)?, Some(Notification { fd: jobs, cookie: 7 }));
    assert_eq!(c.mq_receive(jobs, 64, None).wait()?, PosixMessage { priority: 9, text: b"sweep".to_vec() });
    let ready = c.sem_open(b"/ready", O_CREAT, 0o600, 0).wait()?;
    c.sem_post(ready).wait()?;
    c.sem_wait(ready, None).wait()?;
    assert_eq!(c.sem_getvalue(ready).wait()?, 0);
    let table = c.shm_open(b"/table", O_CREAT | O_RDWR, 0o600).wait()?;
    c.ftruncate(table, 64).wait()?;
    c.shm_write(table, 8, b"row").wait()?;
    assert_eq!(c.shm_read(table, 7, 4).wait()?, b"\0row");
    let segment = c.shmget(9, 64, IPC_CREAT | 0o600).wait()?;
    let shared = c.shmat(segment, 0).wait()?;
    c.attached_write(shared, 8, b"old").wait()?;
    assert_eq!(c.attached_read(shared, 8, 3).wait()?, b"old");
    c.shmdt(shared).wait()?;
    refused(c.shm_stat(9), EBADF);
    // The longest request that a server reads, and one that would end the connection.
    refused(c.msgsnd(queue, 1, &[0; 65792 - 21], 0), EINVAL);
    refused(c.msgsnd(queue, 1, &[0; 65793 - 21], 0), EINVAL);
    Ok(())
}

#[test]
fn waits_and_deadlines() -> Result<(), Error> {
    let server = Server::new("waits", &[]);
    let (c, other) = (server.connect(), server.connect());
    let queue = c.msgget(1, IPC_CREAT | 0o600).wait()?;
    let waiting = c.msgrcv(queue, 64, 3, 0);
    waits(&c);
    other.msgsnd(queue, 3, b"go", 0).wait()?;
    assert_eq!(waiting.wait()?, Message { kind: 3, text: b"go".to_vec() });

    // A wait that is over interrupts its call. What came first is the result all the same.
    let begin = Instant::now();
    let refusal = c.msgrcv(queue, 64, 0, 0).wait_for(Duration::from_millis(200)).unwrap_err();
    assert_eq!((refusal.errno(), begin.elapsed() >= Duration::from_millis(200)), (Some(EINTR), true));
    let waiting = c.msgrcv(queue, 64, 0, 0);
    waits(&c);
    other.msgsnd(queue, 4, b"first", 0).wait()?;
    waiting_is_answered(&c);
    assert_eq!(waiting.wait_for(Duration::ZERO)?.text, b"first");
    let waiting = c.msgrcv(queue, 64, 0, 0);
    waits(&c);
    c.interrupt().wait()?;
    refused(waiting, EINTR);

    // The server itself ends a call at its deadline, and a list of operations after its timeout.
    let jobs = c.mq_open(b"/jobs", O_CREAT | O_RDWR, 0o600, None).wait()?;
    let begin = Instant::now();
    let length = Duration::from_millis(200);
    refused(c.mq_receive(jobs, 64, Some(SystemTime::now() + length)), ETIMEDOUT);
    let set = c.semget(1, 1, IPC_CREAT | 0o600).wait()?;
    refused(c.semop(set, &[Op { num: 0, op: -1, flags: 0 }], Some(length)), EAGAIN);
    assert!(begin.elapsed() >= Duration::from_millis(390), "two waits of 200 ms took {:?}", begin.elapsed());
    let waiting = c.msgrcv(queue, 64, 0, 0);
    waits(&c);
    other.msgctl_rmid(queue).wait()?;
    refused(waiting, EIDRM);
    Ok(())
}

/// The call that waited has been answered: another call of the connection is done.
fn waiting_is_answered(c: &Connection) {
    let end = Instant::now() + MINUTE;
    while c.msgctl_stat(1).wait().is_err() {
        assert!(Instant::now() < end, "it still waits");
    }
}

/// After each kill all that was answered is there, in its order, and at most what was sent.
#[test]
fn kills() -> Result<(), Error> {
    let mut server = Server::new("kills", &[]);
    for (round, kill) in [1, 7, 30, 60, 99].into_iter().enumerate() {
        let c = server.connect();
        let queue = c.msgget(round as i32 + 1, IPC_CREAT | 0o600).wait()?;
        let mut sent: Vec<_> = (1..=100).map(|kind| c.msgsnd(queue, kind, b"", IPC_NOWAIT)).collect();
        let later = sent.split_off(kill);
        for it in sent {
            it.wait()?;
        }
        server.kill();
        let mut answered = kill;
        for it in later {
            match it.wait() {
                Ok(()) => answered += 1,
                Err(Error::Ended(_)) => {}
                Err(other) => panic!("{other}, and not the end of the connection"),
            }
        }
        assert!(matches!(c.interrupt().wait(), Err(Error::Ended(_))));
        server.process = serve(&server.folder);
        let c = server.connect();
        let queue = c.msgget(round as i32 + 1, 0).wait()?;
        let mut found = 0;
        let last = loop {
            match c.msgrcv(queue, 64, 0, IPC_NOWAIT).wait() {
                Ok(message) => {
                    found += 1;
                    assert_eq!(message.kind, found as i64);
                }
                Err(refusal) => break refusal,
            }
        };
        assert_eq!(last.errno(), Some(ENOMSG));
        assert!((answered..=100).contains(&found), "{answered} were answered, and {found} are there");
        c.msgctl_rmid(queue).wait()?;
    }
    Ok(())
}
