#![doc = include_str!("../README.md")]

mod ahci;
mod disk;
mod error;
mod ffi;
mod machine;
mod medium;
mod multiplier;
mod profile;

pub use ahci::{Ahci, GuestMemory, NoMemory, Notice};
pub use disk::Disk;
pub use error::Error;
pub use machine::{Event, Machine, Wanted, Width};
pub use medium::{Answer, Ask, Asks, Failure, Fault, Medium, Reply, Request, SectorRange, Work};
pub use multiplier::{Multiplier, CONTROL_PORT};
pub use profile::{Profile, Rotation, LEAST_LIMIT, SECTOR};

/// The most bytes of a FIS: a Data FIS of one dword and 8,192 bytes.
pub const FIS_ROOM: usize = 8196;

/// Room for any FIS.
pub type FisRoom = [u8; FIS_ROOM];

/// What a FIS means, as one line without a line feed.
///
/// ```
/// let mut fis = [0; 20];
/// fis[..8].copy_from_slice(&[0x27, 0x83, 0x60, 0x01, 0x00, 0x01, 0x00, 0x40]);
/// fis[12] = 0x28;
/// assert_eq!(
///     gefsunk::fis_text(&fis)?,
///     "h2d port 3 c 1 command 60 features 0001 lba 000000000100 device 40 count 0028 icc 00 control 00",
/// );
/// # Ok::<(), gefsunk::Error>(())
/// ```
///
/// # Errors
/// [`Error::BadLength`] and [`Error::WrongLength`].
pub fn fis_text(fis: &[u8]) -> Result<String, Error> {
    ffi::fis_text(fis)
}

/// The version of the library that runs.
///
/// ```
/// assert_eq!(gefsunk::version(), env!("CARGO_PKG_VERSION"));
/// ```
pub fn version() -> &'static str {
    ffi::version()
}
