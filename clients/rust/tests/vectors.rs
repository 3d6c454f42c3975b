//! The vectors of the protocol: each method sends the bytes of its request, and reads its reply. A false server at the
//! other end of a pair of sockets compares and answers.

use std::fmt::Debug;
use std::io::{Read, Write};
use std::os::unix::net::UnixStream;
use std::thread;
use std::time::{Duration, UNIX_EPOCH};

use ipcd::*;

/// The text of a field in a row, which stands on a line of its own and has no quotes within.
fn field<'a>(line: &'a str, name: &str) -> &'a str {
    let begin = format!("\"{name}\": \"");
    let rest = &line[line.find(&begin).expect("a field") + begin.len()..];
    &rest[..rest.find('"').expect("its end")]
}

fn bytes(digits: &str) -> Vec<u8> {
    (0..digits.len()).step_by(2).map(|i| u8::from_str_radix(&digits[i..i + 2], 16).unwrap()).collect()
}

fn number(text: &str) -> i128 {
    text.split('|').fold(0, |total, part| total | one_number(part))
}

fn one_number(part: &str) -> i128 {
    let flag = match part {
        "IPC_CREAT" => IPC_CREAT,
        "IPC_EXCL" => IPC_EXCL,
        "IPC_NOWAIT" => IPC_NOWAIT,
        "MSG_NOERROR" => MSG_NOERROR,
        "MSG_EXCEPT" => MSG_EXCEPT,
        "SEM_UNDO" => SEM_UNDO,
        "SHM_RDONLY" => SHM_RDONLY,
        "O_RDONLY" => O_RDONLY,
        "O_WRONLY" => O_WRONLY,
        "O_RDWR" => O_RDWR,
        "O_CREAT" => O_CREAT,
        "O_EXCL" => O_EXCL,
        "O_TRUNC" => O_TRUNC,
        "O_NONBLOCK" => O_NONBLOCK,
        _ if part.len() > 1 && part.starts_with('0') => return i128::from_str_radix(part, 8).unwrap(),
        _ => return part.parse().unwrap_or_else(|_| panic!("no number: {part}")),
    };
    flag.into()
}

/// A text with `%HH` for some bytes.
fn plain(text: &str) -> Vec<u8> {
    let mut found = Vec::new();
    let mut left = text.as_bytes();
    while let Some((first, rest)) = left.split_first() {
        if *first == b'%' {
            found.push(u8::from_str_radix(std::str::from_utf8(&rest[..2]).unwrap(), 16).unwrap());
            left = &rest[2..];
        } else {
            found.push(*first);
            left = rest;
        }
    }
    found
}

/// The words of a request.
struct Words<'a>(&'a str);

impl Words<'_> {
    fn get(&self, name: &str) -> &str {
        let found = self.0.split(' ').find_map(|it| it.split_once('=').filter(|it| it.0 == name));
        found.unwrap_or_else(|| panic!("no field {name}")).1
    }
    fn i(&self, name: &str) -> i32 {
        number(self.get(name)) as i32
    }
    fn u(&self, name: &str) -> u32 {
        number(self.get(name)) as u32
    }
    fn long(&self, name: &str) -> u64 {
        number(self.get(name)) as u64
    }
    fn text(&self, name: &str) -> Vec<u8> {
        plain(self.get(name))
    }
    fn time(&self, name: &str) -> Option<Duration> {
        (self.get(name) != "none").then(|| Duration::from_millis(self.long(name)))
    }
    fn moment(&self) -> Option<std::time::SystemTime> {
        self.time("deadline").map(|it| UNIX_EPOCH + it)
    }
    fn list(&self, name: &str) -> Vec<Vec<i128>> {
        let parts = self.get(name).split(',').filter(|it| !it.is_empty());
        parts.map(|it| it.split(':').map(number).collect()).collect()
    }
}

/// A reply with numbers in decimal and texts as lists of bytes.
fn said(reply: &str) -> String {
    let shown = |(name, value): (&str, &str)| match name {
        "text" | "bytes" => format!("{name}={:?}", plain(value)),
        "values" => format!("{name}={:?}", value.split(',').map(number).collect::<Vec<_>>()),
        _ => format!("{name}={}", number(value)),
    };
    let words = reply.split(' ').map(|it| it.split_once('=').map_or(it.to_string(), shown));
    words.collect::<Vec<_>>().join(" ")
}

type Reply = Result<String, Error>;

fn get<T: Body>(pending: Pending<T>, shown: impl Fn(T) -> String) -> Reply {
    pending.wait_for(Duration::from_secs(20)).map(shown)
}

fn ok(pending: Pending<()>) -> Reply {
    get(pending, |()| "ok".into())
}

fn one(name: &str, pending: Pending<u32>) -> Reply {
    get(pending, |it| format!("{name}={it}"))
}

fn greeting(c: &Connection, pending: Pending<u32>) -> Reply {
    let version = |pid| c.version().map_or(format!("pid={pid}"), |it| format!("pid={pid} version={it}"));
    get(pending, version)
}

fn list<T: Debug>(name: &str, pending: Pending<Vec<T>>) -> Reply
where
    Vec<T>: Body,
{
    get(pending, |it| format!("{name}={it:?}"))
}

fn attributes(pending: Pending<Attr>) -> Reply {
    get(pending, |it| format!("flags={} maxmsg={} msgsize={} curmsgs={}", it.flags, it.maxmsg, it.msgsize, it.curmsgs))
}

fn owned(key: i32, it: &Owner) -> String {
    format!("key={key} uid={} gid={} cuid={} cgid={} mode={}", it.uid, it.gid, it.cuid, it.cgid, it.mode)
}

fn call(c: &Connection, name: &str, w: &Words) -> Reply {
    match name {
        "hello" => greeting(c, c.hello(w.u("uid"), w.u("gid"))),
        "interrupt" => ok(c.interrupt()),
        "close" => ok(c.close_fd(w.u("fd"))),
        "msgget" => one("identifier", c.msgget(w.i("key"), w.u("flags"))),
        "msgsnd" => ok(c.msgsnd(w.u("id"), number(w.get("type")) as i64, &w.text("text"), w.u("flags"))),
        "msgrcv" => {
            let pending = c.msgrcv(w.u("id"), w.u("size"), number(w.get("type")) as i64, w.u("flags"));
            get(pending, |it| format!("type={} text={:?}", it.kind, it.text))
        }
        "msgctl_stat" => get(c.msgctl_stat(w.u("id")), |it| {
            let times = format!("stime={} rtime={} ctime={}", it.stime, it.rtime, it.ctime);
            let rest = format!("lspid={} lrpid={} qbytes={}", it.lspid, it.lrpid, it.qbytes);
            format!("{} {times} {rest} qnum={} cbytes={}", owned(it.key, &it.owner), it.qnum, it.cbytes)
        }),
        "msgctl_set" => ok(c.msgctl_set(w.u("id"), w.u("uid"), w.u("gid"), w.u("mode"), w.u("qbytes"))),
        "msgctl_rmid" => ok(c.msgctl_rmid(w.u("id"))),
        "semget" => one("identifier", c.semget(w.i("key"), w.i("nsems"), w.u("flags"))),
        "semop" => {
            let of = |it: &Vec<i128>| Op { num: it[0] as u16, op: it[1] as i16, flags: it[2] as u32 };
            ok(c.semop(w.u("id"), &w.list("operations").iter().map(of).collect::<Vec<_>>(), w.time("timeout")))
        }
        "semctl_getval" => one("value", c.semctl_getval(w.u("id"), w.u("num"))),
        "semctl_getpid" => one("pid", c.semctl_getpid(w.u("id"), w.u("num"))),
        "semctl_getncnt" => one("count", c.semctl_getncnt(w.u("id"), w.u("num"))),
        "semctl_getzcnt" => one("count", c.semctl_getzcnt(w.u("id"), w.u("num"))),
        "semctl_setval" => ok(c.semctl_setval(w.u("id"), w.u("num"), w.i("value"))),
        "semctl_getall" => list("values", c.semctl_getall(w.u("id"))),
        "semctl_setall" => {
            let values: Vec<u16> = w.list("values").iter().map(|it| it[0] as u16).collect();
            ok(c.semctl_setall(w.u("id"), &values))
        }
        "semctl_stat" => get(c.semctl_stat(w.u("id")), |it| {
            format!("{} otime={} ctime={} nsems={}", owned(it.key, &it.owner), it.otime, it.ctime, it.nsems)
        }),
        "semctl_set" => ok(c.semctl_set(w.u("id"), w.u("uid"), w.u("gid"), w.u("mode"))),
        "semctl_rmid" => ok(c.semctl_rmid(w.u("id"))),
        "mq_open" => {
            let limits = Limits { maxmsg: w.i("maxmsg"), msgsize: w.i("msgsize") };
            one("fd", c.mq_open(&w.text("name"), w.u("flags"), w.u("mode"), (w.u("attr") != 0).then_some(limits)))
        }
        "mq_unlink" => ok(c.mq_unlink(&w.text("name"))),
        "mq_send" => ok(c.mq_send(w.u("fd"), &w.text("text"), w.u("priority"), w.moment())),
        "mq_receive" => get(c.mq_receive(w.u("fd"), w.u("size"), w.moment()), |it| {
            format!("priority={} text={:?}", it.priority, it.text)
        }),
        "mq_notify" => ok(c.mq_notify(w.u("fd"), w.u("kind"), w.u("cookie"))),
        "mq_getattr" => attributes(c.mq_getattr(w.u("fd"))),
        "mq_setattr" => attributes(c.mq_setattr(w.u("fd"), w.u("flags"))),
        "sem_open" => one("fd", c.sem_open(&w.text("name"), w.u("flags"), w.u("mode"), w.u("value"))),
        "sem_unlink" => ok(c.sem_unlink(&w.text("name"))),
        "sem_post" => ok(c.sem_post(w.u("fd"))),
        "sem_wait" => ok(c.sem_wait(w.u("fd"), w.moment())),
        "sem_trywait" => ok(c.sem_trywait(w.u("fd"))),
        "sem_getvalue" => one("value", c.sem_getvalue(w.u("fd"))),
        "shm_open" => one("fd", c.shm_open(&w.text("name"), w.u("flags"), w.u("mode"))),
        "shm_unlink" => ok(c.shm_unlink(&w.text("name"))),
        "ftruncate" => ok(c.ftruncate(w.u("fd"), w.long("length"))),
        "shm_read" => list("bytes", c.shm_read(w.u("fd"), w.long("offset"), w.u("length"))),
        "shm_write" => ok(c.shm_write(w.u("fd"), w.long("offset"), &w.text("bytes"))),
        "shm_stat" => get(c.shm_stat(w.u("fd")), |it| {
            format!("length={} uid={} gid={} mode={}", it.length, it.uid, it.gid, it.mode)
        }),
        "shmget" => one("identifier", c.shmget(w.i("key"), w.long("size"), w.u("flags"))),
        "shmat" => one("attachment", c.shmat(w.u("id"), w.u("flags"))),
        "shmdt" => ok(c.shmdt(w.u("attachment"))),
        "shmctl_stat" => get(c.shmctl_stat(w.u("id")), |it| {
            let times = format!("atime={} dtime={} ctime={}", it.atime, it.dtime, it.ctime);
            let rest = format!("cpid={} lpid={} nattch={}", it.cpid, it.lpid, it.nattch);
            format!("{} {times} {rest} segsz={}", owned(it.key, &it.owner), it.segsz)
        }),
        "shmctl_set" => ok(c.shmctl_set(w.u("id"), w.u("uid"), w.u("gid"), w.u("mode"))),
        "shmctl_rmid" => ok(c.shmctl_rmid(w.u("id"))),
        "attached_read" => list("bytes", c.attached_read(w.u("attachment"), w.long("offset"), w.u("length"))),
        "attached_write" => ok(c.attached_write(w.u("attachment"), w.long("offset"), &w.text("bytes"))),
        _ => panic!("no such call: {name}"),
    }
}

/// Reads one request, compares all of it but its serial, and writes a reply with that serial.
fn answer(mut socket: UnixStream, wanted: &[u8], mut reply: Vec<u8>) {
    let mut head = [0; 8];
    socket.read_exact(&mut head).unwrap();
    let size = u32::from_be_bytes(head[..4].try_into().unwrap()) as usize;
    let mut rest = vec![0; size - 4];
    socket.read_exact(&mut rest).unwrap();
    if !wanted.is_empty() {
        assert_eq!((&head[..4], &rest[..]), (&wanted[..4], &wanted[8..]), "the request");
    }
    if reply[4..8] != [0; 4] {
        reply[4..8].copy_from_slice(&head[4..]);
    }
    socket.write_all(&reply).unwrap();
}

fn try_row(line: &str) {
    let (request, reply) = (field(line, "request"), field(line, "reply"));
    let (ours, mut theirs) = UnixStream::pair().unwrap();
    let c = Connection::over(ours).unwrap();
    if request.is_empty() {
        theirs.write_all(&bytes(field(line, "reply_bytes"))).unwrap();
        let told = c.notification(Duration::from_secs(20)).unwrap().unwrap();
        assert_eq!(format!("notification fd={} cookie={}", told.fd, told.cookie), said(reply));
        return;
    }
    let name = request.split(' ').next().unwrap();
    // No client sends what is no request: another one is answered so.
    let (name, wanted) = if name == "frame" { ("interrupt", vec![]) } else { (name, bytes(field(line, "bytes"))) };
    let replies = bytes(field(line, "reply_bytes"));
    let server = thread::spawn(move || answer(theirs, &wanted, replies));
    let found = call(&c, name, &Words(request));
    server.join().unwrap();
    match found {
        Ok(words) => assert_eq!(words, said(reply)),
        Err(Error::Refused { errno, .. }) => assert_eq!(errno::name(errno), Some(reply)),
        Err(Error::Ended(Ended::Fault(number))) => {
            assert!(["EPROTO", "EIO"].contains(&reply), "the connection has ended by {number}");
            assert_eq!(errno::name(number), Some(reply));
        }
        Err(other) => panic!("{other}"),
    }
}

#[test]
fn vectors() {
    let path = concat!(env!("CARGO_MANIFEST_DIR"), "/../../docs/vectors.json");
    let text = std::fs::read_to_string(path).unwrap();
    let rows: Vec<&str> = text.lines().filter(|it| it.starts_with('{')).collect();
    assert!(rows.len() >= 150, "{} rows are few", rows.len());
    for line in rows {
        println!("{line}");
        try_row(line);
    }
}

/// The bodies of replies to HELLO, and what each says; one without a pid is none. Nobody knows yet what comes after the
/// version.
const GREETINGS: [(&str, &str); 7] = [
    ("", ""),
    ("000007", ""),
    ("00000007", "pid=7"),
    ("0000000700", "pid=7"),
    ("00000007000000", "pid=7"),
    ("0000000700000003", "pid=7 version=3"),
    ("00000007000000040a0b0c0d0e", "pid=7 version=4"),
];

#[test]
fn greetings() {
    for (digits, wanted) in GREETINGS {
        let (ours, mut theirs) = UnixStream::pair().unwrap();
        let c = Connection::over(ours).unwrap();
        let call = c.hello(1000, 100);
        theirs.read_exact(&mut [0; 17]).unwrap();
        let mut frame = (6 + digits.len() as u32 / 2).to_be_bytes().to_vec();
        frame.extend([0, 0, 0, 1, 0, 0]);
        frame.extend(bytes(digits));
        theirs.write_all(&frame).unwrap();
        let ended = Err(Error::Ended(Ended::Protocol));
        assert_eq!(greeting(&c, call), if wanted.is_empty() { ended } else { Ok(wanted.into()) }, "{digits}");
    }
}

/// What no server sends: the client ends the connection. Each is the answer to a msgget of serial 1.
const STRANGE: [&str; 7] = [
    "0000000a0000000200000000000001",
    "000000090000000100000000ff",
    "0000000b00000001000000000001ff",
    "0000000a0000000100110000000b",
    "00000005000000010000",
    "00010101000000010000",
    "000000070000000000000000",
];

#[test]
fn strange_replies() {
    for digits in STRANGE {
        let (ours, mut theirs) = UnixStream::pair().unwrap();
        let c = Connection::over(ours).unwrap();
        let call = c.msgget(1, 0);
        theirs.read_exact(&mut [0; 17]).unwrap();
        theirs.write_all(&bytes(digits)).unwrap();
        let ended = Err(Error::Ended(Ended::Protocol));
        assert_eq!(call.wait_for(Duration::from_secs(20)), ended, "{digits} is a reply");
        assert_eq!(c.interrupt().wait().map(|()| 0), ended, "{digits}: a call after the end");
    }
}
