//! What a disk asks of its medium, and how it is answered.

use crate::profile::SECTOR;
use crate::{ffi, Error};

/// Which request an answer is for. It may go to another thread, and come back with the answer.
#[derive(Debug, Clone, Copy, PartialEq, Eq, Hash)]
pub struct Request(pub(crate) ffi::Request);

/// What a medium is to do.
#[derive(Debug, Clone, Copy, PartialEq, Eq)]
pub enum Work {
    /// Give these sectors.
    Load {
        /// The first of them.
        lba: u64,
        /// How many they are, at most 2,048.
        count: u32,
    },
    /// Take these sectors, whose bytes are had by [`Asks::stored`].
    Store {
        /// The first of them.
        lba: u64,
        /// How many they are, at most 2,048.
        count: u32,
    },
    /// What was stored is to last a loss of power.
    Flush,
    /// Sectors, which are had by [`Asks::discarded`], are not needed any more.
    Discard,
}

/// A disk asks its medium. Each is answered once, at any time and in any order.
#[derive(Debug, Clone, Copy, PartialEq, Eq)]
pub struct Ask {
    /// The port of the disk; 0 for a disk that is in no machine.
    pub port: u8,
    /// What is to be done.
    pub what: Work,
    /// What the answer names.
    pub request: Request,
}

impl Ask {
    /// What an event of C asks of a medium, if it does.
    pub(crate) fn shown(event: &ffi::Event) -> Option<Ask> {
        let medium = event.medium();
        let (lba, count) = (medium.lba, medium.count);
        let what = match event.kind {
            4 => Work::Load { lba, count },
            5 => Work::Store { lba, count },
            6 => Work::Flush,
            7 => Work::Discard,
            _ => return None,
        };
        Some(Ask {
            port: event.port as u8,
            what,
            request: Request(medium.request),
        })
    }
}

/// How a request can fail.
#[derive(Debug, Clone, Copy, PartialEq, Eq, Hash)]
pub enum Fault {
    /// The sector cannot be read (UNC). It is of loads alone.
    Unreadable,
    /// There is no such sector (IDNF).
    NoSector,
    /// It cannot be done (ABRT).
    Aborted,
}

impl Fault {
    /// The bit of the Error that the host sees.
    pub(crate) fn bits(self) -> u32 {
        match self {
            Fault::Unreadable => 0x40,
            Fault::NoSector => 0x10,
            Fault::Aborted => 0x04,
        }
    }
}

/// That a request cannot be done, and why. The guest is told.
#[derive(Debug, Clone, Copy, PartialEq, Eq, Hash)]
pub struct Failure {
    /// Why.
    pub fault: Fault,
    /// The first sector that it is true of; of a flush and of a discard it is not looked at.
    pub lba: u64,
}

/// Sectors of a discard.
#[derive(Debug, Clone, Copy, PartialEq, Eq, Hash)]
pub struct SectorRange {
    /// The first of them.
    pub lba: u64,
    /// How many they are.
    pub count: u64,
}

impl SectorRange {
    pub(crate) fn shown(range: ffi::Range) -> SectorRange {
        SectorRange {
            lba: range.lba,
            count: range.count,
        }
    }
}

/// When a medium answers a request that it can do.
#[derive(Debug, Clone, Copy, PartialEq, Eq, Hash)]
pub enum Reply {
    /// Now: it was done. A load has filled its bytes.
    Done,
    /// Later, by its [`Request`], once it was done: [`Asks::answer`], or [`Ahci::answer`](crate::Ahci::answer).
    Later,
}

/// An answer that comes later.
#[derive(Debug, Clone, Copy, PartialEq, Eq)]
pub enum Answer<'bytes> {
    /// The sectors of a load.
    Loaded(&'bytes [u8]),
    /// A store, a flush or a discard was done.
    Done,
    /// It cannot be done.
    Failed(Failure),
}

/// Where the sectors of a disk lie. Sectors have [`SECTOR`] bytes each.
///
/// A call may answer at once, by `Ok(Reply::Done)` or a failure. Or it keeps the request, starts what is to be done elsewhere, and
/// says `Ok(Reply::Later)`. Requests that are out at one time share no sector, unless they are loads. After a reset, an error, or once
/// the disk was pulled, a late answer to a load or a flush is refused. A store or a discard is to be answered all the same: the work may
/// still be done, so until then its sectors, and with a discard the whole disk, take no command.
///
/// Where memory was refused a call may be made once more with the same request.
///
/// A `Vec<u8>` is a medium: its sectors lie in it one behind another. So are a `&mut` of a medium and a `Box<dyn Medium>`, for media of
/// several kinds.
pub trait Medium {
    /// Fills the bytes, which are zeroes, with the sectors from this one on.
    ///
    /// # Errors
    /// Where a sector cannot be read or is not there.
    fn load(&mut self, request: Request, lba: u64, bytes: &mut [u8]) -> Result<Reply, Failure>;

    /// Stores the bytes at the sectors from this one on. A medium that does so later keeps a copy. From its answer on a load gives
    /// what was stored.
    ///
    /// # Errors
    /// Where a sector is not there or cannot be written: not [`Fault::Unreadable`].
    fn store(&mut self, request: Request, lba: u64, bytes: &[u8]) -> Result<Reply, Failure>;

    /// What was stored lasts a loss of power from the answer on.
    ///
    /// # Errors
    /// Where it does not.
    fn flush(&mut self, request: Request) -> Result<Reply, Failure>;

    /// These sectors are not needed any more. As it stands nothing is done.
    ///
    /// # Errors
    /// Where it cannot be done.
    fn discard(&mut self, request: Request, ranges: &[SectorRange]) -> Result<Reply, Failure> {
        let _ = (request, ranges);
        Ok(Reply::Done)
    }
}

macro_rules! passes_on {
    ($($medium:ty),*) => {$(
        impl<M: Medium + ?Sized> Medium for $medium {
            fn load(&mut self, request: Request, lba: u64, bytes: &mut [u8]) -> Result<Reply, Failure> {
                (**self).load(request, lba, bytes)
            }

            fn store(&mut self, request: Request, lba: u64, bytes: &[u8]) -> Result<Reply, Failure> {
                (**self).store(request, lba, bytes)
            }

            fn flush(&mut self, request: Request) -> Result<Reply, Failure> {
                (**self).flush(request)
            }

            fn discard(&mut self, request: Request, ranges: &[SectorRange]) -> Result<Reply, Failure> {
                (**self).discard(request, ranges)
            }
        }
    )*};
}

passes_on!(&mut M, Box<M>);

impl Medium for Vec<u8> {
    fn load(&mut self, _: Request, lba: u64, bytes: &mut [u8]) -> Result<Reply, Failure> {
        bytes.copy_from_slice(place(self, lba, bytes.len())?);
        Ok(Reply::Done)
    }

    fn store(&mut self, _: Request, lba: u64, bytes: &[u8]) -> Result<Reply, Failure> {
        place(self, lba, bytes.len())?.copy_from_slice(bytes);
        Ok(Reply::Done)
    }

    fn flush(&mut self, _: Request) -> Result<Reply, Failure> {
        Ok(Reply::Done)
    }
}

/// Where sectors lie in a vector.
fn place(sectors: &mut [u8], lba: u64, len: usize) -> Result<&mut [u8], Failure> {
    let there = (sectors.len() / SECTOR) as u64;
    let missing = Failure {
        fault: Fault::NoSector,
        lba: lba.max(there),
    };
    let start = usize::try_from(lba)
        .ok()
        .and_then(|lba| lba.checked_mul(SECTOR));
    start
        .and_then(|start| sectors.get_mut(start..)?.get_mut(..len))
        .ok_or(missing)
}

/// So many zeroes, in a room that is used again.
pub(crate) fn zeroes(room: &mut Vec<u8>, len: usize) -> Result<&mut [u8], Error> {
    room.clear();
    room.try_reserve(len).map_err(|_| Error::NoMemory)?;
    room.resize(len, 0);
    Ok(room)
}

pub(crate) mod sealed {
    /// Nobody else can ask.
    pub trait Sealed {}
}

/// What asks media: a [`Disk`](crate::Disk), and a [`Machine`](crate::Machine) for the disks in it.
pub trait Asks: sealed::Sealed {
    /// The sectors of a load.
    ///
    /// # Errors
    /// [`Error::OtherDisk`] and [`Error::NotOut`]: drop them. [`Error::OtherKind`], [`Error::OtherLength`] and
    /// [`Error::NoMemory`].
    fn loaded(&mut self, request: &Request, bytes: &[u8]) -> Result<(), Error>;

    /// A store, a flush or a discard was done.
    ///
    /// # Errors
    /// [`Error::OtherDisk`], [`Error::NotOut`] and [`Error::OtherKind`].
    fn done(&mut self, request: &Request) -> Result<(), Error>;

    /// A request could not be done.
    ///
    /// # Errors
    /// [`Error::OtherDisk`], [`Error::NotOut`], [`Error::OtherKind`] and [`Error::OtherSector`].
    fn failed(&mut self, request: &Request, failure: Failure) -> Result<(), Error>;

    /// Copies bytes of a store, from an offset on, as many as there are and fit, and says how many they are. They are there until the
    /// store is answered, or its disk is reset, plugged in or pulled. They are never those of another request.
    ///
    /// # Errors
    /// [`Error::OtherDisk`], [`Error::NotOut`] and [`Error::OtherKind`].
    fn stored(&mut self, request: &Request, from: usize, bytes: &mut [u8]) -> Result<usize, Error>;

    /// The range of a discard that has this number, counted from 0; `None` where it has no more.
    ///
    /// # Errors
    /// [`Error::OtherDisk`] and [`Error::NotOut`].
    fn discarded(&mut self, request: &Request, number: usize)
        -> Result<Option<SectorRange>, Error>;

    /// The answer of a medium, whenever it comes.
    ///
    /// # Errors
    /// [`Error::OtherDisk`] and [`Error::NotOut`]: drop it. [`Error::NoMemory`]: give it again. Where it does not fit the request:
    /// [`Error::OtherKind`], [`Error::OtherLength`] and [`Error::OtherSector`].
    fn answer(&mut self, request: &Request, answer: Answer<'_>) -> Result<(), Error> {
        match answer {
            Answer::Loaded(bytes) => self.loaded(request, bytes),
            Answer::Done => self.done(request),
            Answer::Failed(failure) => self.failed(request, failure),
        }
    }

    /// Has a medium do what is asked, and passes its answer on if it answers now. The room may be used again.
    ///
    /// # Errors
    /// [`Error::NoMemory`]: call again. [`Error::OtherDisk`] and [`Error::NotOut`]: the request is not out any more.
    /// [`Error::OtherKind`] and [`Error::OtherSector`]: the medium's failure does not fit the request, which is still out.
    fn serve<M: Medium + ?Sized>(
        &mut self,
        ask: &Ask,
        medium: &mut M,
        room: &mut Vec<u8>,
    ) -> Result<(), Error> {
        let request = &ask.request;
        let reply = match ask.what {
            Work::Load { lba, count } => {
                let bytes = zeroes(room, count as usize * SECTOR)?;
                let reply = medium.load(*request, lba, bytes);
                if reply == Ok(Reply::Done) {
                    return self.loaded(request, bytes);
                }
                reply
            }
            Work::Store { lba, count } => {
                let bytes = zeroes(room, count as usize * SECTOR)?;
                match self.stored(request, 0, bytes) {
                    // A reset, a pull or an error dropped them. Its sectors are free again once it is answered.
                    Err(Error::NotOut) => {
                        let fault = Fault::Aborted;
                        return self.failed(request, Failure { fault, lba });
                    }
                    stored => stored?,
                };
                medium.store(*request, lba, bytes)
            }
            Work::Flush => without_sector(medium.flush(*request)),
            Work::Discard => match all_ranges(self, request) {
                // A reset dropped them, as the bytes of a store.
                Err(Error::NotOut) => {
                    let fault = Fault::Aborted;
                    return self.failed(request, Failure { fault, lba: 0 });
                }
                ranges => without_sector(medium.discard(*request, &ranges?)),
            },
        };
        match reply {
            Ok(Reply::Done) => self.done(request),
            Ok(Reply::Later) => Ok(()),
            Err(failure) => self.failed(request, failure),
        }
    }
}

/// A flush and a discard fail without a sector.
fn without_sector(reply: Result<Reply, Failure>) -> Result<Reply, Failure> {
    reply.map_err(|failure| Failure { lba: 0, ..failure })
}

/// The ranges of a discard.
fn all_ranges<A: Asks + ?Sized>(
    asker: &mut A,
    request: &Request,
) -> Result<Vec<SectorRange>, Error> {
    let mut ranges = Vec::new();
    while let Some(range) = asker.discarded(request, ranges.len())? {
        ranges.try_reserve(1).map_err(|_| Error::NoMemory)?;
        ranges.push(range);
    }
    Ok(ranges)
}

/// `Asks` for what owns a handle; the one call that differs is the last.
macro_rules! asks {
    ($asker:ty, |$handle:ident, $request:ident, $number:ident, $range:ident| $discarded:expr) => {
        impl $crate::medium::sealed::Sealed for $asker {}

        impl $crate::medium::Asks for $asker {
            fn loaded(&mut self, request: &Request, bytes: &[u8]) -> Result<(), Error> {
                self.owned.loaded(&request.0, bytes)
            }

            fn done(&mut self, request: &Request) -> Result<(), Error> {
                self.owned.done(&request.0)
            }

            fn failed(&mut self, request: &Request, failure: Failure) -> Result<(), Error> {
                self.owned
                    .failed(&request.0, failure.fault.bits(), failure.lba)
            }

            fn stored(
                &mut self,
                request: &Request,
                from: usize,
                bytes: &mut [u8],
            ) -> Result<usize, Error> {
                self.owned.stored(&request.0, from, bytes)
            }

            fn discarded(
                &mut self,
                $request: &Request,
                $number: usize,
            ) -> Result<Option<SectorRange>, Error> {
                let range = self.owned.given(|$handle, $range| $discarded)?;
                Ok(range.map(SectorRange::shown))
            }
        }
    };
}

pub(crate) use asks;
