//! A machine that has its guest's memory and its media.

use crate::machine::{Event, Machine, Width};
use crate::medium::{zeroes, Answer, Asks, Medium, Request};
use crate::{Error, FisRoom, Profile};

/// How many accesses one call makes at most.
const BUDGET: usize = 256;

/// The most bytes of one write to the guest's memory.
const LENT: usize = 8192;

/// Device ports of the largest machine.
const PORTS: usize = 15;

/// There is no memory at some of these addresses.
#[derive(Debug, Clone, Copy, PartialEq, Eq, Hash)]
pub struct NoMemory;

/// The guest's memory, as the controller sees it.
///
/// A `Vec<u8>` and a `[u8]` are memory that begins at address 0.
pub trait GuestMemory {
    /// Fills the bytes with those from an address on.
    ///
    /// # Errors
    /// Where some of them are not memory. The controller then sees an error of its bus.
    fn read(&mut self, at: u64, bytes: &mut [u8]) -> Result<(), NoMemory>;

    /// Writes the bytes from an address on.
    ///
    /// # Errors
    /// Where some of them are not memory. The controller is not told.
    fn write(&mut self, at: u64, bytes: &[u8]) -> Result<(), NoMemory>;
}

impl<G: GuestMemory + ?Sized> GuestMemory for &mut G {
    fn read(&mut self, at: u64, bytes: &mut [u8]) -> Result<(), NoMemory> {
        (**self).read(at, bytes)
    }

    fn write(&mut self, at: u64, bytes: &[u8]) -> Result<(), NoMemory> {
        (**self).write(at, bytes)
    }
}

impl GuestMemory for [u8] {
    fn read(&mut self, at: u64, bytes: &mut [u8]) -> Result<(), NoMemory> {
        bytes.copy_from_slice(place(self, at, bytes.len()).ok_or(NoMemory)?);
        Ok(())
    }

    fn write(&mut self, at: u64, bytes: &[u8]) -> Result<(), NoMemory> {
        place(self, at, bytes.len())
            .ok_or(NoMemory)?
            .copy_from_slice(bytes);
        Ok(())
    }
}

impl GuestMemory for Vec<u8> {
    fn read(&mut self, at: u64, bytes: &mut [u8]) -> Result<(), NoMemory> {
        self.as_mut_slice().read(at, bytes)
    }

    fn write(&mut self, at: u64, bytes: &[u8]) -> Result<(), NoMemory> {
        self.as_mut_slice().write(at, bytes)
    }
}

/// Bytes of a memory that begins at 0.
fn place(memory: &mut [u8], at: u64, len: usize) -> Option<&mut [u8]> {
    memory.get_mut(usize::try_from(at).ok()?..)?.get_mut(..len)
}

/// What the caller is to hear of, or to do.
#[derive(Debug, Clone, Copy, PartialEq, Eq, Hash)]
#[non_exhaustive]
pub enum Notice {
    /// The interrupt line is up, or down, from now on.
    Line {
        /// Whether it is up.
        up: bool,
    },
    /// A message is due, where messages (MSI) stand for the line.
    Message,
    /// A FIS is there for a device of the caller's: [`Ahci::take_frame`].
    ToDevice {
        /// The port of the device.
        port: u8,
    },
    /// What is at a port begins anew. A device of the caller's forgets what it had to do, and sends its signature; for a disk
    /// nothing is to be done.
    Begins {
        /// The port.
        port: u8,
    },
    /// There is more to do, and the call was to be short: ask again, at once or after others had their turn.
    Again,
}

/// An AHCI controller with one port, behind it one device or a port multiplier, and at each port a disk with its medium, or a device
/// of the caller's. It reads and writes the guest's memory and the media by itself.
///
/// After each access of the guest that wrote, after each answer that came later, and after something was plugged in or pulled, ask
/// [`next_notice`](Ahci::next_notice) until it says `None`.
///
/// ```
/// use gefsunk::{Ahci, Notice, Profile, Width, SECTOR};
///
/// let memory = vec![0; 0x10000];
/// let mut ahci = Ahci::new(2, true, memory)?;
/// ahci.put_disk(0, &Profile::new(64, "ONE"), vec![0; 64 * SECTOR])?;
/// ahci.plug(0)?;
/// ahci.power_on()?;
///
/// // The guest has the port's area for FISes at 2000h, and has it filled (PxFB, PxCMD.FRE). The disk's signature comes.
/// for (offset, value) in [(0x108, 0x2000), (0x118, 0x10)] {
///     ahci.write(offset, Width::Dword, value)?;
///     while let Some(notice) = ahci.next_notice()? {
///         match notice {
///             Notice::Line { up } => println!("the line is {}", if up { "up" } else { "down" }),
///             _ => (),
///         }
///     }
/// }
/// assert_eq!(ahci.read(0x124, Width::Dword)?, 0x101); // PxSIG
/// assert_eq!(ahci.memory()[0x2040], 0x34); // the FIS in the area
/// # Ok::<(), gefsunk::Error>(())
/// ```
pub struct Ahci<G, M> {
    machine: Machine,
    memory: G,
    media: [Option<M>; PORTS],
    /// What could not be served for want of memory.
    kept: Option<Event>,
    /// Room for bytes on their way.
    room: Vec<u8>,
}

impl<G: GuestMemory, M: Medium> Ahci<G, M> {
    /// A controller that is stopped, with nothing at its ports. With 0 ports there is no multiplier, and port 0 is the one port.
    /// Port 0 of a multiplier may be open from the start, for software that knows no multipliers.
    ///
    /// # Errors
    /// [`Error::BadPorts`] and [`Error::NoMemory`].
    pub fn new(ports: u8, port_0_open: bool, memory: G) -> Result<Ahci<G, M>, Error> {
        Ok(Ahci {
            machine: Machine::new(ports, port_0_open)?,
            memory,
            media: [const { None }; PORTS],
            kept: None,
            room: Vec::new(),
        })
    }

    /// What the registers read at an offset, the lowest byte first; those of the port begin at 100h. 0 where no register is, and
    /// for an access that crosses a boundary of eight bytes.
    ///
    /// # Errors
    /// None that these bindings leave possible.
    pub fn read(&mut self, offset: u32, width: Width) -> Result<u64, Error> {
        self.machine.read(offset, width)
    }

    /// Writes registers. What may not be done is ignored.
    ///
    /// # Errors
    /// None that these bindings leave possible.
    pub fn write(&mut self, offset: u32, width: Width, value: u64) -> Result<(), Error> {
        self.machine.write(offset, width, value)
    }

    /// Puts a disk at a port, with its medium. The guest does not see it before [`plug`](Ahci::plug).
    ///
    /// # Errors
    /// [`Error::NoPort`], [`Error::AlreadyThere`], what is wrong with the profile, and [`Error::NoMemory`]. The medium is dropped
    /// then: lend one that is to outlive it, since a `&mut` of a medium is one.
    pub fn put_disk(&mut self, port: u8, profile: &Profile, medium: M) -> Result<(), Error> {
        self.machine.put_disk(port, profile)?;
        self.media[usize::from(port)] = Some(medium);
        Ok(())
    }

    /// Puts a device of the caller's at a port.
    ///
    /// # Errors
    /// [`Error::NoPort`] and [`Error::AlreadyThere`].
    pub fn put_device(&mut self, port: u8) -> Result<(), Error> {
        self.machine.put_device(port)
    }

    /// What is at a port is plugged in, and begins anew.
    ///
    /// # Errors
    /// [`Error::NoPort`], [`Error::NotThere`], [`Error::PluggedIn`] and [`Error::Spent`].
    pub fn plug(&mut self, port: u8) -> Result<(), Error> {
        self.machine.plug(port)
    }

    /// Power comes to what is behind the controller, and all that is plugged in begins anew. Call it behind the last
    /// [`plug`](Ahci::plug) of what is there as power comes.
    ///
    /// # Errors
    /// None that these bindings leave possible.
    pub fn power_on(&mut self) -> Result<(), Error> {
        self.machine.power_on()
    }

    /// What is at a port is pulled, and stays at hand. Answers for loads and flushes of before are refused; stores and discards are still
    /// to be answered.
    ///
    /// # Errors
    /// [`Error::NoPort`] and [`Error::NotThere`].
    pub fn pull(&mut self, port: u8) -> Result<(), Error> {
        self.machine.pull(port)?;
        self.forget(port);
        Ok(())
    }

    /// What is at a port is pulled if it is plugged in, and is gone; gives the medium of a disk back.
    ///
    /// # Errors
    /// [`Error::NoPort`] and [`Error::NotThere`].
    pub fn remove(&mut self, port: u8) -> Result<Option<M>, Error> {
        self.machine.remove(port)?;
        self.forget(port);
        Ok(self.media[usize::from(port)].take())
    }

    /// Drops what is kept of a port's disk.
    fn forget(&mut self, port: u8) {
        if matches!(self.kept, Some(Event::Medium(ask)) if ask.port == port) {
            self.kept = None;
        }
    }

    /// Does what is to be done in the guest's memory and on media, up to something that the caller is to hear of; `None` where nothing
    /// is left, until the guest, a medium or a device does something. A call makes at most 256 accesses.
    ///
    /// # Errors
    /// [`Error::NoMemory`]: nothing is lost, ask again. [`Error::OtherKind`] and [`Error::OtherSector`]: a medium failed a request in
    /// a way that the request does not have; it is still out, and wants an [`answer`](Ahci::answer).
    pub fn next_notice(&mut self) -> Result<Option<Notice>, Error> {
        for _ in 0..BUDGET {
            let event = match self.kept.take() {
                Some(event) => event,
                None => match self.machine.next_event()? {
                    Some(event) => event,
                    None => return Ok(None),
                },
            };
            let served = self.serve(event);
            if served == Err(Error::NoMemory) {
                self.kept = Some(event);
            }
            if let Some(notice) = served? {
                return Ok(Some(notice));
            }
        }
        Ok(Some(Notice::Again))
    }

    /// Does what an event asks for, or says what the caller is to hear.
    fn serve(&mut self, event: Event) -> Result<Option<Notice>, Error> {
        match event {
            Event::Again => return Ok(Some(Notice::Again)),
            Event::Line { up } => return Ok(Some(Notice::Line { up })),
            Event::Message => return Ok(Some(Notice::Message)),
            Event::ToDevice { port } => return Ok(Some(Notice::ToDevice { port })),
            Event::Begins { port } => return Ok(Some(Notice::Begins { port })),
            Event::ReadGuest { at, len, wanted } => {
                let bytes = zeroes(&mut self.room, len)?;
                match self.memory.read(at, bytes) {
                    Ok(()) => self.machine.supply(&wanted, bytes)?,
                    Err(NoMemory) => self.machine.no_memory(&wanted)?,
                }
            }
            Event::WriteGuest { at, .. } => {
                let bytes = zeroes(&mut self.room, LENT)?;
                if let Some(len) = self.machine.lent(bytes)? {
                    // The controller hears nothing of a write that went nowhere.
                    let _ = self.memory.write(at, &bytes[..len]);
                }
            }
            Event::Medium(ask) => {
                let medium = self.media.get_mut(usize::from(ask.port));
                if let Some(medium) = medium.and_then(Option::as_mut) {
                    match self.machine.serve(&ask, medium, &mut self.room) {
                        Err(Error::OtherDisk | Error::NotOut) => (),
                        served => served?,
                    }
                }
            }
        }
        Ok(None)
    }

    /// The answer of a medium that said [`Reply::Later`](crate::Reply::Later), whenever it comes.
    ///
    /// # Errors
    /// [`Error::OtherDisk`] and [`Error::NotOut`]: the disk was reset, pulled or removed, or an error ended its commands; drop the
    /// answer. [`Error::NoMemory`]: give it again. Where it does not fit the request: [`Error::OtherKind`],
    /// [`Error::OtherLength`] and [`Error::OtherSector`].
    pub fn answer(&mut self, request: &Request, answer: Answer<'_>) -> Result<(), Error> {
        self.machine.answer(request, answer)
    }

    /// Takes the FIS for the caller's device at a port; `None` where none waits.
    ///
    /// # Errors
    /// None that these bindings leave possible.
    pub fn take_frame<'room>(
        &mut self,
        port: u8,
        room: &'room mut FisRoom,
    ) -> Result<Option<&'room [u8]>, Error> {
        self.machine.take_frame(port, room)
    }

    /// The caller's device at a port sends a FIS.
    ///
    /// # Errors
    /// [`Error::Full`]: give it again later. [`Error::BadLength`] and [`Error::NoMemory`].
    pub fn offer(&mut self, port: u8, fis: &[u8]) -> Result<(), Error> {
        self.machine.offer(port, fis)
    }

    /// The guest's memory.
    pub fn memory(&self) -> &G {
        &self.memory
    }

    /// The guest's memory, to be changed.
    pub fn memory_mut(&mut self) -> &mut G {
        &mut self.memory
    }

    /// The medium of the disk at a port, if one is there.
    pub fn medium_mut(&mut self, port: u8) -> Option<&mut M> {
        self.media.get_mut(usize::from(port))?.as_mut()
    }
}
