//! Fields of requests and bodies of replies: big-endian numbers, and bytes up to the end.

/// A field of a request.
pub trait Field {
    fn put(&self, frame: &mut Vec<u8>);
}

/// What a reply's body is read as.
pub trait Body: Sized {
    /// Reads itself from the front of the bytes that are left.
    fn read(left: &mut &[u8]) -> Option<Self>;
}

/// What a body is as a whole.
pub(crate) fn whole<T: Body>(body: &[u8]) -> Option<T> {
    let mut left = body;
    let value = T::read(&mut left)?;
    left.is_empty().then_some(value)
}

macro_rules! numbers {
    ($($kind:ty),*) => {$(
        impl Field for $kind {
            fn put(&self, frame: &mut Vec<u8>) {
                frame.extend_from_slice(&self.to_be_bytes());
            }
        }
        impl Body for $kind {
            fn read(left: &mut &[u8]) -> Option<Self> {
                const SIZE: usize = std::mem::size_of::<$kind>();
                let (number, rest) = (left.get(..SIZE)?, &left[SIZE..]);
                *left = rest;
                Some(<$kind>::from_be_bytes(number.try_into().ok()?))
            }
        }
    )*};
}
numbers!(u8, u16, u32, u64, i16, i32, i64);

impl Field for [u8] {
    fn put(&self, frame: &mut Vec<u8>) {
        frame.extend_from_slice(self);
    }
}

impl Field for &[u8] {
    fn put(&self, frame: &mut Vec<u8>) {
        frame.extend_from_slice(self);
    }
}

impl Field for &[u16] {
    fn put(&self, frame: &mut Vec<u8>) {
        self.iter().for_each(|it| it.put(frame));
    }
}

impl Body for () {
    fn read(_: &mut &[u8]) -> Option<Self> {
        Some(())
    }
}

impl Body for Vec<u8> {
    fn read(left: &mut &[u8]) -> Option<Self> {
        Some(std::mem::take(left).to_vec())
    }
}

impl Body for Vec<u16> {
    fn read(left: &mut &[u8]) -> Option<Self> {
        let mut values = Vec::new();
        while !left.is_empty() {
            values.push(u16::read(left)?);
        }
        Some(values)
    }
}

impl Body for (u32, u32) {
    fn read(left: &mut &[u8]) -> Option<Self> {
        Some((u32::read(left)?, u32::read(left)?))
    }
}

macro_rules! records {
    ($($(#[$doc:meta])* $name:ident { $($field:ident: $kind:ty),* })*) => {$(
        $(#[$doc])*
        #[derive(Clone, Debug, PartialEq, Eq)]
        pub struct $name {
            $(pub $field: $kind),*
        }
        impl Body for $name {
            fn read(left: &mut &[u8]) -> Option<Self> {
                Some($name { $($field: <$kind>::read(left)?),* })
            }
        }
    )*};
}

records! {
    /// What msgrcv(2) answers.
    Message { kind: i64, text: Vec<u8> }
    /// What mq_receive(3) answers.
    PosixMessage { priority: u32, text: Vec<u8> }
    /// Who owns and who created a System V object, and its mode: the user, group and others in nine bits.
    Owner { uid: u32, gid: u32, cuid: u32, cgid: u32, mode: u32 }
    /// The record of a queue. Times are milliseconds since 1970, and 0 is never.
    QueueStat {
        key: i32, owner: Owner, stime: u64, rtime: u64, ctime: u64, lspid: u32, lrpid: u32, qbytes: u32, qnum: u32,
        cbytes: u32
    }
    /// The record of a semaphore set. Times are milliseconds since 1970, and 0 is never.
    SetStat { key: i32, owner: Owner, otime: u64, ctime: u64, nsems: u32 }
    /// The record of a System V segment. Times are milliseconds since 1970, and 0 is never. The mode has SHM_DEST, and
    /// the key is 0, if it was removed and is attached.
    SegmentStat {
        key: i32, owner: Owner, atime: u64, dtime: u64, ctime: u64, cpid: u32, lpid: u32, nattch: u32, segsz: u64
    }
    /// The record of a segment of shm_open(3).
    ShmStat { length: u64, uid: u32, gid: u32, mode: u32 }
    /// What mq_getattr(3) answers. Flags are 0 or O_NONBLOCK.
    Attr { flags: u32, maxmsg: u32, msgsize: u32, curmsgs: u32 }
}
