//! The statuses of the library other than done, as errors.

use core::ffi::c_int;
use std::fmt;

use crate::ffi;

macro_rules! errors {
    ($($(#[$doc:meta])* $name:ident = $status:literal,)*) => {
        /// Why a call did not do what it was asked: each status of `c/include/gefsunk.h`, by the same number. The header says at each
        /// call which of them it may answer.
        #[derive(Debug, Clone, Copy, PartialEq, Eq, Hash)]
        #[non_exhaustive]
        pub enum Error {
            $($(#[$doc])* $name,)*
            /// A status that these bindings do not know: the library is a later one.
            Unknown(c_int),
        }

        impl Error {
            /// The error of a status; none for `GEF_OK`.
            pub fn of_status(status: c_int) -> Option<Error> {
                match status {
                    0 => None,
                    $($status => Some(Error::$name),)*
                    _ => Some(Error::Unknown(status)),
                }
            }

            /// The status of the header.
            pub fn status(self) -> c_int {
                match self {
                    $(Error::$name => $status,)*
                    Error::Unknown(status) => status,
                }
            }
        }
    };
}

errors! {
    /// A pointer is null. These bindings pass none.
    Null = 1,
    /// The handle is not open. Those of these bindings are.
    Closed = 2,
    /// The handle is open already. These bindings open each once.
    Open = 3,
    /// The allocator gave no memory. Nothing is lost: call again.
    NoMemory = 4,
    /// A port multiplier has 1 to 15 device ports.
    BadPorts = 5,
    /// There is no such port.
    NoPort = 6,
    /// No FIS has this many bytes.
    BadLength = 7,
    /// No FIS of this type has this many bytes.
    WrongLength = 8,
    /// The room is too short.
    TooShort = 9,
    /// There is nothing to give. Calls that may have nothing say `None` in its place.
    Nothing = 10,
    /// The place that the FIS needs is taken. Give the FIS again later.
    Full = 11,
    /// Nobody takes the FIS. It is gone.
    Dropped = 12,
    /// A device is at the port already.
    AlreadyThere = 13,
    /// No device is at the port.
    NotThere = 14,
    /// The port has no such register.
    NoRegister = 15,
    /// 4,294,967,295 devices came to this port. It takes no other.
    Spent = 16,
    /// An access to registers has 1, 2, 4 or 8 bytes. A [`Width`](crate::Width) is one of them.
    BadWidth = 20,
    /// A disk has 1 to 2^48 - 1 sectors.
    BadSectors = 21,
    /// A text is longer than its field, or has a character that is not printable ASCII.
    BadText = 22,
    /// A queue has 1 to 32 commands.
    BadDepth = 23,
    /// A medium makes 1,025 to 65,534 turns a minute.
    BadRotation = 24,
    /// A physical sector has 512 or 4,096 bytes.
    BadPhysical = 25,
    /// The bound of what the commands of a disk hold is below [`LEAST_LIMIT`](crate::LEAST_LIMIT).
    BadLimit = 26,
    /// What is at the port is plugged in already.
    PluggedIn = 27,
    /// No event asks for such bytes.
    NotWanted = 28,
    /// The disk that asked is not at the port any more. Drop the answer.
    OtherDisk = 29,
    /// No such request is out: it was answered, or a reset or an error ended it. Drop the answer.
    NotOut = 30,
    /// The request asked for something else.
    OtherKind = 31,
    /// The load asked for another number of bytes. It is still out.
    OtherLength = 32,
    /// The request does not have this sector.
    OtherSector = 33,
    /// A request fails by one of three errors. A [`Fault`](crate::Fault) is one of them.
    BadError = 34,
    /// The bytes are not the state of a machine.
    NotAState = 35,
    /// The state has a version that this library does not read.
    OtherVersion = 36,
    /// The state is damaged.
    BadState = 37,
}

impl Error {
    pub(crate) fn check(status: c_int) -> Result<(), Error> {
        Error::of_status(status).map_or(Ok(()), Err)
    }
}

/// The library's sentence.
impl fmt::Display for Error {
    fn fmt(&self, f: &mut fmt::Formatter<'_>) -> fmt::Result {
        f.write_str(ffi::status_text(self.status()))
    }
}

impl std::error::Error for Error {}
