//! A machine: an AHCI controller with all that is behind it, by events.

use crate::ffi::{self, Owned};
use crate::medium::{asks, Ask, Failure, Request, SectorRange};
use crate::{Error, FisRoom, Profile};

/// How many bytes an access to registers has.
#[derive(Debug, Clone, Copy, PartialEq, Eq, Hash)]
pub enum Width {
    /// 1.
    Byte = 1,
    /// 2.
    Word = 2,
    /// 4.
    Dword = 4,
    /// 8.
    Qword = 8,
}

/// What bytes of the guest are wanted for.
#[derive(Debug, Clone, Copy, PartialEq, Eq, Hash)]
pub struct Wanted(ffi::Wanted);

/// What is to be done.
#[derive(Debug, Clone, Copy, PartialEq, Eq)]
#[non_exhaustive]
pub enum Event {
    /// A budget of moves is spent, so that a call is short: ask again.
    Again,
    /// Bytes of the guest's memory are wanted: [`Machine::supply`], or [`Machine::no_memory`].
    ReadGuest {
        /// The address of the first of them.
        at: u64,
        /// How many they are.
        len: usize,
        /// What the answer names.
        wanted: Wanted,
    },
    /// Bytes, which [`Machine::lent`] gives, go to the guest's memory: before anything else is asked, and before the guest reads
    /// a register.
    WriteGuest {
        /// The address of the first of them.
        at: u64,
        /// How many they are, at most 8,192.
        len: usize,
    },
    /// A disk asks its medium.
    Medium(Ask),
    /// The interrupt line is up, or down, from now on.
    Line {
        /// Whether it is up.
        up: bool,
    },
    /// A message is due, where messages (MSI) stand for the line.
    Message,
    /// A FIS is there for a device of the caller's: [`Machine::take_frame`].
    ToDevice {
        /// The port of the device.
        port: u8,
    },
    /// What is at a port begins anew. A device of the caller's forgets what it had to do, and sends its signature; for a disk
    /// nothing is to be done.
    Begins {
        /// The port.
        port: u8,
    },
}

impl Event {
    /// What an event of C is; `None` where there is nothing, or what these bindings do not know.
    fn shown(event: &ffi::Event) -> Option<Event> {
        let port = event.port as u8;
        Some(match event.kind {
            1 => Event::Again,
            2 => {
                let ffi::Read { at, len, wanted } = event.read();
                let wanted = Wanted(wanted);
                Event::ReadGuest { at, len, wanted }
            }
            3 => {
                let ffi::Write { at, len } = event.write();
                Event::WriteGuest { at, len }
            }
            8 => Event::Line {
                up: event.up() != 0,
            },
            9 => Event::Message,
            10 => Event::ToDevice { port },
            11 => Event::Begins { port },
            _ => Event::Medium(Ask::shown(event)?),
        })
    }
}

/// An AHCI controller with one port, behind it one device or a port multiplier, and at each port a disk whose sectors lie with the
/// caller, or a device of the caller's. Each access to the guest's memory and to a medium is an event, which the caller answers;
/// [`Ahci`](crate::Ahci) does so by itself.
///
/// Give it the guest's accesses to registers, and after each that wrote, and after each answer, ask [`next_event`](Machine::next_event)
/// until it says `None`. [`Asks`](crate::Asks) has the answers of media. It may move to another thread. No two threads use it at once.
pub struct Machine {
    owned: Owned<ffi::Machine>,
}

asks!(Machine, |machine, request, number, range| {
    ffi::gef_machine_discarded(machine, &request.0, number, range)
});

impl Machine {
    /// A machine whose controller is stopped, with nothing at its ports. With 0 ports there is no multiplier, and port 0 is the one
    /// port. Port 0 of a multiplier may be open from the start, for software that knows no multipliers.
    ///
    /// # Errors
    /// [`Error::BadPorts`] and [`Error::NoMemory`].
    pub fn new(ports: u8, port_0_open: bool) -> Result<Machine, Error> {
        let open = u32::from(port_0_open);
        let owned = Owned::open(|machine| ffi::gef_machine_new(machine, ports, open))?;
        Ok(Machine { owned })
    }

    /// All that the machine is, as bytes: [`restore`](Machine::restore) makes it again, in another process, too. The guest's memory, the
    /// media, and each event that was not answered yet are the caller's to save: requests stay out under their numbers.
    ///
    /// ```
    /// let mut machine = gefsunk::Machine::new(15, true)?;
    /// let state = machine.save()?;
    /// assert_eq!(gefsunk::Machine::restore(&state)?.save()?, state);
    /// assert_eq!(gefsunk::Machine::restore(&state[8..]).err(), Some(gefsunk::Error::NotAState));
    /// # Ok::<(), gefsunk::Error>(())
    /// ```
    ///
    /// # Errors
    /// [`Error::NoMemory`].
    pub fn save(&mut self) -> Result<Vec<u8>, Error> {
        let size = self
            .owned
            .got(|machine, len| ffi::gef_machine_state_size(machine, len))?;
        let mut state = vec![0; size];
        let len: usize = self
            .owned
            .got(|machine, len| ffi::machine_save(machine, &mut state, len))?;
        state.truncate(len);
        Ok(state)
    }

    /// The machine whose state these bytes are. Bytes of anybody give a machine whose calls are as safe as ever, which asks for no sector
    /// that its disks do not have, and where no two requests of a disk have one number, or are refused.
    ///
    /// # Errors
    /// [`Error::NotAState`], [`Error::OtherVersion`], [`Error::BadState`] and [`Error::NoMemory`].
    pub fn restore(state: &[u8]) -> Result<Machine, Error> {
        let owned = Owned::open(|machine| ffi::machine_restore(machine, state))?;
        Ok(Machine { owned })
    }

    /// What the registers read at an offset, the lowest byte first; those of the port begin at 100h. 0 where no register is, and
    /// for an access that crosses a boundary of eight bytes.
    ///
    /// # Errors
    /// None that these bindings leave possible.
    pub fn read(&mut self, offset: u32, width: Width) -> Result<u64, Error> {
        self.owned
            .got(|machine, value| ffi::gef_machine_read(machine, offset, width as u32, value))
    }

    /// Writes registers. What may not be done is ignored.
    ///
    /// # Errors
    /// None that these bindings leave possible.
    pub fn write(&mut self, offset: u32, width: Width, value: u64) -> Result<(), Error> {
        self.owned
            .call(|machine| ffi::gef_machine_write(machine, offset, width as u32, value))
    }

    /// Puts a disk at a port. The guest does not see it before [`plug`](Machine::plug).
    ///
    /// # Errors
    /// [`Error::NoPort`], [`Error::AlreadyThere`], what is wrong with the profile, and [`Error::NoMemory`].
    pub fn put_disk(&mut self, port: u8, profile: &Profile) -> Result<(), Error> {
        profile.with_raw(|raw| {
            self.owned
                .call(|machine| ffi::gef_machine_put_disk(machine, port, raw))
        })
    }

    /// Puts a device of the caller's at a port.
    ///
    /// # Errors
    /// [`Error::NoPort`] and [`Error::AlreadyThere`].
    pub fn put_device(&mut self, port: u8) -> Result<(), Error> {
        self.owned
            .call(|machine| ffi::gef_machine_put_device(machine, port))
    }

    /// What is at a port is plugged in, and begins anew.
    ///
    /// # Errors
    /// [`Error::NoPort`], [`Error::NotThere`], [`Error::PluggedIn`] and [`Error::Spent`].
    pub fn plug(&mut self, port: u8) -> Result<(), Error> {
        self.owned
            .call(|machine| ffi::gef_machine_plug(machine, port))
    }

    /// Power comes to what is behind the controller, and all that is plugged in begins anew.
    ///
    /// # Errors
    /// None that these bindings leave possible.
    pub fn power_on(&mut self) -> Result<(), Error> {
        self.owned
            .call(|machine| ffi::gef_machine_power_on(machine))
    }

    /// What is at a port is pulled, and stays at hand.
    ///
    /// # Errors
    /// [`Error::NoPort`] and [`Error::NotThere`].
    pub fn pull(&mut self, port: u8) -> Result<(), Error> {
        self.owned
            .call(|machine| ffi::gef_machine_pull(machine, port))
    }

    /// What is at a port is pulled if it is plugged in, and is gone.
    ///
    /// # Errors
    /// [`Error::NoPort`] and [`Error::NotThere`].
    pub fn remove(&mut self, port: u8) -> Result<(), Error> {
        self.owned
            .call(|machine| ffi::gef_machine_remove(machine, port))
    }

    /// What is to be done next; `None` where nothing is, until the guest, a medium or a device does something.
    ///
    /// # Errors
    /// [`Error::NoMemory`].
    pub fn next_event(&mut self) -> Result<Option<Event>, Error> {
        Ok(Event::shown(&self.owned.next(ffi::gef_machine_next)?))
    }

    /// Copies the bytes of the last [`Event::WriteGuest`], and says how many they are; `None` where there are none any more.
    ///
    /// # Errors
    /// [`Error::TooShort`]: they are more.
    pub fn lent(&mut self, bytes: &mut [u8]) -> Result<Option<usize>, Error> {
        self.owned
            .given(|machine, len| ffi::machine_lent(machine, bytes, len))
    }

    /// The bytes that are wanted of the guest's memory. What is not wanted any more changes nothing.
    ///
    /// # Errors
    /// [`Error::NotWanted`]. [`Error::NoMemory`]: they are dropped, and the next event asks for them anew.
    pub fn supply(&mut self, wanted: &Wanted, bytes: &[u8]) -> Result<(), Error> {
        self.owned
            .call(|machine| ffi::machine_supply(machine, &wanted.0, bytes))
    }

    /// Some of the bytes that are wanted are not memory.
    ///
    /// # Errors
    /// [`Error::NotWanted`].
    pub fn no_memory(&mut self, wanted: &Wanted) -> Result<(), Error> {
        self.owned
            .call(|machine| ffi::gef_machine_no_memory(machine, &wanted.0))
    }

    /// Takes the FIS for the caller's device at a port; `None` where none waits.
    ///
    /// # Errors
    /// None that these bindings leave possible.
    pub fn take_frame<'room>(
        &mut self,
        port: u8,
        room: &'room mut FisRoom,
    ) -> Result<Option<&'room [u8]>, Error> {
        let len = self
            .owned
            .given(|machine, len| ffi::machine_take_frame(machine, port, room, len))?;
        Ok(len.map(|len| &room[..len]))
    }

    /// The caller's device at a port sends a FIS.
    ///
    /// # Errors
    /// [`Error::Full`]: give it again later. [`Error::BadLength`] and [`Error::NoMemory`].
    pub fn offer(&mut self, port: u8, fis: &[u8]) -> Result<(), Error> {
        self.owned
            .call(|machine| ffi::machine_offer(machine, port, fis))
    }
}
