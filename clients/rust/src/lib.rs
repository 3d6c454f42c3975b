//! A client of an ipcd server: System V and POSIX IPC objects that survive crashes. README.md has a first session; the
//! server's docs/PROTOCOL.md says what each call means.

use std::collections::{HashMap, VecDeque};
use std::fmt;
use std::io::{self, Read, Write};
use std::net::Shutdown;
use std::os::unix::net::UnixStream;
use std::path::Path;
use std::sync::{Arc, Condvar, Mutex, MutexGuard};
use std::thread;
use std::time::{Duration, Instant};

mod body;
mod calls;
pub mod errno;

pub use body::*;
pub use calls::*;

/// How long the replies to an interrupted call and to its INTERRUPT may take.
pub const PATIENCE: Duration = Duration::from_secs(30);

const LONGEST_FRAME: usize = 65792;
/// The name of the call whose reply may have more than this client knows.
const HELLO: &str = "hello";

/// Why a call has no result.
#[derive(Clone, Debug, PartialEq, Eq)]
pub enum Error {
    /// The server refuses the call, with an error number of its manual page (see [`errno`]).
    Refused { call: &'static str, errno: i32 },
    /// The connection has ended. A request without a reply was maybe done, and maybe not.
    Ended(Ended),
}

/// How a connection has ended.
#[derive(Clone, Debug, PartialEq, Eq)]
pub enum Ended {
    /// By `close`, or by the end of the server.
    Closed,
    /// By the server's last frame: EPROTO for a request that is none, EIO if its disk has failed.
    Fault(i32),
    /// The server has sent what is no frame of the protocol.
    Protocol,
    /// The system has refused to read or write, or no reply came within [`PATIENCE`].
    Io(io::ErrorKind),
}

impl Error {
    /// The error number of a refusal.
    pub fn errno(&self) -> Option<i32> {
        match self {
            Error::Refused { errno, .. } => Some(*errno),
            Error::Ended(_) => None,
        }
    }
}

impl fmt::Display for Error {
    fn fmt(&self, f: &mut fmt::Formatter<'_>) -> fmt::Result {
        match self {
            Error::Refused { call, errno } => write!(f, "{call}: {}", io::Error::from_raw_os_error(*errno)),
            Error::Ended(how) => write!(f, "the connection has ended: {how:?}"),
        }
    }
}

impl std::error::Error for Error {}

impl From<Error> for io::Error {
    fn from(error: Error) -> io::Error {
        match error {
            Error::Refused { errno, .. } => io::Error::from_raw_os_error(errno),
            Error::Ended(_) => io::Error::new(io::ErrorKind::ConnectionReset, error),
        }
    }
}

/// What mq_notify(3) asked for: the descriptor that registered, and the cookie.
#[derive(Clone, Copy, Debug, PartialEq, Eq)]
pub struct Notification {
    pub fd: u32,
    pub cookie: u32,
}

/// What is known of a request: the name of its call, or its reply. Nothing is kept of one that nobody waits for.
enum Answer {
    Asked(&'static str),
    Nobody,
    Came(Result<Vec<u8>, Error>),
}

struct State {
    version: Option<u32>,
    answers: HashMap<u32, Answer>,
    notified: VecDeque<Notification>,
    ended: Option<Ended>,
}

impl State {
    /// The pid of the body of a reply to HELLO. The version may follow, and what a later server tells after it.
    fn pid_of(&mut self, mut body: Vec<u8>) -> Vec<u8> {
        self.version = body.get(4..8).and_then(whole);
        body.truncate(4);
        body
    }
}

struct Shared {
    socket: UnixStream,
    /// The last serial. Whoever holds it writes, so requests go out in the order of their serials.
    serial: Mutex<u32>,
    state: Mutex<State>,
    changed: Condvar,
}

/// Closes the socket with the last copy of a connection.
struct Handle(Arc<Shared>);

impl Drop for Handle {
    fn drop(&mut self) {
        self.0.end(Ended::Closed);
    }
}

/// A connection, which is one process of the server after `hello`. Copies are the same connection, for threads. The
/// server has one waiting call of a process at a time: further calls are EALREADY meanwhile, so a thread that waits
/// has a connection of its own.
#[derive(Clone)]
pub struct Connection {
    handle: Arc<Handle>,
}

impl Connection {
    /// Connects to the socket of a server. `hello` comes next.
    pub fn connect(path: impl AsRef<Path>) -> io::Result<Connection> {
        Connection::over(UnixStream::connect(path)?)
    }

    /// A connection over a socket that is connected.
    pub fn over(socket: UnixStream) -> io::Result<Connection> {
        let reader = socket.try_clone()?;
        let state = State { version: None, answers: HashMap::new(), notified: VecDeque::new(), ended: None };
        let shared =
            Arc::new(Shared { socket, serial: Mutex::new(0), state: Mutex::new(state), changed: Condvar::new() });
        let reading = Arc::clone(&shared);
        thread::Builder::new().name("ipcd".into()).spawn(move || {
            let how = reading.read(reader);
            reading.end(how);
        })?;
        Ok(Connection { handle: Arc::new(Handle(shared)) })
    }

    /// Ends the process: its waiting call is gone, its adjustments are added, its descriptors are closed.
    pub fn close(&self) {
        self.handle.0.end(Ended::Closed);
    }

    /// The version of the server's device, 3 or later, once `hello` is answered. None: the server has told none, as on
    /// devices of version 1 and 2.
    pub fn version(&self) -> Option<u32> {
        self.handle.0.state().version
    }

    /// The next notification, or nothing within this time.
    pub fn notification(&self, within: Duration) -> Result<Option<Notification>, Error> {
        let end = Instant::now() + within;
        let mut state = self.handle.0.state();
        loop {
            if let Some(first) = state.notified.pop_front() {
                return Ok(Some(first));
            }
            if let Some(how) = &state.ended {
                return Err(Error::Ended(how.clone()));
            }
            let left = end.saturating_duration_since(Instant::now());
            if left.is_zero() {
                return Ok(None);
            }
            state = self.handle.0.changed.wait_timeout(state, left).unwrap().0;
        }
    }

    /// Sends a request. Its reply is read by `Pending::wait`.
    fn begin<T: Body>(&self, call: &'static str, opcode: u8, fields: &[&dyn Field]) -> Pending<T> {
        let shared = Arc::clone(&self.handle.0);
        let mut frame = vec![0; 8];
        frame.push(opcode);
        fields.iter().for_each(|field| field.put(&mut frame));
        let serial = shared.send(call, &mut frame);
        Pending { shared, call, serial, body: std::marker::PhantomData }
    }
}

impl Shared {
    fn state(&self) -> MutexGuard<'_, State> {
        self.state.lock().unwrap()
    }

    fn send(&self, call: &'static str, frame: &mut [u8]) -> Result<u32, Error> {
        if frame.len() - 4 > LONGEST_FRAME {
            return Err(Error::Refused { call, errno: too_long(frame[8]) });
        }
        let mut last = self.serial.lock().unwrap();
        *last = last.checked_add(1).unwrap_or(1);
        let serial = *last;
        {
            let mut state = self.state();
            if let Some(how) = &state.ended {
                return Err(Error::Ended(how.clone()));
            }
            state.answers.insert(serial, Answer::Asked(call));
        }
        let length = frame.len() as u32 - 4;
        frame[..4].copy_from_slice(&length.to_be_bytes());
        frame[4..8].copy_from_slice(&serial.to_be_bytes());
        // The reader always reads, so this never waits for ever. If the server has ended the connection, its last frame
        // is still to be read, and the reader ends the connection.
        if let Err(error) = (&self.socket).write_all(frame) {
            if !matches!(error.kind(), io::ErrorKind::BrokenPipe | io::ErrorKind::ConnectionReset) {
                self.end(Ended::Io(error.kind()));
            }
        }
        Ok(serial)
    }

    /// Reads frames until the connection ends, and says how it has.
    fn read(&self, mut socket: UnixStream) -> Ended {
        let mut head = [0; 4];
        loop {
            let mut frame = match socket.read_exact(&mut head).map(|()| u32::from_be_bytes(head) as usize) {
                Ok(size) if !(6..=LONGEST_FRAME).contains(&size) => return Ended::Protocol,
                Ok(size) => vec![0; size],
                Err(error) => return ended(error),
            };
            if let Err(error) = socket.read_exact(&mut frame) {
                return ended(error);
            }
            let body = frame.split_off(6);
            let serial = u32::from_be_bytes([frame[0], frame[1], frame[2], frame[3]]);
            let number = i32::from(u16::from_be_bytes([frame[4], frame[5]]));
            if let Err(how) = self.take(serial, number, body) {
                return how;
            }
        }
    }

    /// Hands a frame to whoever waits for it, or says how it ends the connection.
    fn take(&self, serial: u32, number: i32, body: Vec<u8>) -> Result<(), Ended> {
        if number == errno::EPROTO || serial == 0 && number != 0 {
            return Err(Ended::Fault(number));
        }
        let mut state = self.state();
        if serial == 0 {
            let (fd, cookie) = whole(&body).ok_or(Ended::Protocol)?;
            state.notified.push_back(Notification { fd, cookie });
        } else {
            match state.answers.remove(&serial) {
                Some(Answer::Asked(call)) => {
                    if number != 0 && !body.is_empty() {
                        return Err(Ended::Protocol);
                    }
                    let body = if call == HELLO { state.pid_of(body) } else { body };
                    let reply = if number == 0 { Ok(body) } else { Err(Error::Refused { call, errno: number }) };
                    state.answers.insert(serial, Answer::Came(reply));
                }
                Some(Answer::Nobody) => {}
                Some(Answer::Came(_)) | None => return Err(Ended::Protocol),
            }
        }
        self.changed.notify_all();
        Ok(())
    }

    fn end(&self, how: Ended) {
        let mut state = self.state();
        state.ended.get_or_insert(how);
        let _ = self.socket.shutdown(Shutdown::Both);
        self.changed.notify_all();
    }
}

fn ended(error: io::Error) -> Ended {
    match error.kind() {
        io::ErrorKind::UnexpectedEof => Ended::Closed,
        kind => Ended::Io(kind),
    }
}

/// A call that was sent. Several may be sent before the first `wait`: their replies come in their order, but for that
/// of a call that waits. Of one that is dropped the reply is lost, though the call is done.
#[must_use = "the reply says whether the call was done"]
pub struct Pending<T> {
    shared: Arc<Shared>,
    call: &'static str,
    serial: Result<u32, Error>,
    body: std::marker::PhantomData<T>,
}

impl<T: Body> Pending<T> {
    /// Waits for the reply.
    pub fn wait(self) -> Result<T, Error> {
        self.finish(None)
    }

    /// The same, for so long: then it interrupts the call that waits, which is EINTR, unless its reply came first:
    /// that is the result, so no message is lost.
    pub fn wait_for(self, time: Duration) -> Result<T, Error> {
        let mut frame = vec![0, 0, 0, 0, 0, 0, 0, 0, 0x02];
        if !self.came(Instant::now() + time) {
            if let Ok(interrupt) = self.shared.send("interrupt", &mut frame) {
                self.shared.forget(interrupt);
            }
        }
        self.finish(Some(Instant::now() + PATIENCE))
    }

    /// Whether the reply is there by a moment.
    fn came(&self, end: Instant) -> bool {
        let serial = match self.serial {
            Ok(serial) => serial,
            Err(_) => return true,
        };
        let mut state = self.shared.state();
        loop {
            if state.ended.is_some() || !matches!(state.answers.get(&serial), Some(Answer::Asked(_))) {
                return true;
            }
            let left = end.saturating_duration_since(Instant::now());
            if left.is_zero() {
                return false;
            }
            state = self.shared.changed.wait_timeout(state, left).unwrap().0;
        }
    }

    fn finish(self, end: Option<Instant>) -> Result<T, Error> {
        let serial = self.serial.clone()?;
        let hour = Duration::from_secs(3600);
        while !self.came(end.unwrap_or_else(|| Instant::now() + hour)) {
            if end.is_some() {
                self.shared.end(Ended::Io(io::ErrorKind::TimedOut));
            }
        }
        let answer = self.shared.state().answers.remove(&serial);
        let reply = match answer {
            Some(Answer::Came(reply)) => reply?,
            _ => return Err(Error::Ended(self.shared.state().ended.clone().unwrap_or(Ended::Closed))),
        };
        whole(&reply).ok_or_else(|| {
            self.shared.end(Ended::Protocol);
            Error::Ended(Ended::Protocol)
        })
    }

    /// The name of the call.
    pub fn call(&self) -> &'static str {
        self.call
    }
}

impl Shared {
    /// Nobody waits for the reply to this request.
    fn forget(&self, serial: u32) {
        let mut state = self.state();
        if let Some(Answer::Asked(_)) = state.answers.remove(&serial) {
            state.answers.insert(serial, Answer::Nobody);
        }
    }
}

impl<T> Drop for Pending<T> {
    fn drop(&mut self) {
        if let Ok(serial) = self.serial {
            self.shared.forget(serial);
        }
    }
}
