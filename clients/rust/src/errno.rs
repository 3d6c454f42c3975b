//! The error numbers of refusals, as errno(3) has them on Linux.

macro_rules! numbers {
    ($($name:ident = $number:literal),*) => {
        $(pub const $name: i32 = $number;)*

        /// The name of a number.
        pub fn name(number: i32) -> Option<&'static str> {
            match number {
                $($number => Some(stringify!($name)),)*
                _ => None,
            }
        }
    };
}

numbers!(
    EPERM = 1,
    ENOENT = 2,
    EINTR = 4,
    EIO = 5,
    E2BIG = 7,
    EBADF = 9,
    EAGAIN = 11,
    ENOMEM = 12,
    EACCES = 13,
    EBUSY = 16,
    EEXIST = 17,
    EINVAL = 22,
    ENFILE = 23,
    EMFILE = 24,
    EFBIG = 27,
    ENOSPC = 28,
    ERANGE = 34,
    ENAMETOOLONG = 36,
    ENOMSG = 42,
    EIDRM = 43,
    EPROTO = 71,
    EOVERFLOW = 75,
    EMSGSIZE = 90,
    ETIMEDOUT = 110,
    EALREADY = 114
);
