//! The port multiplier.

use crate::ffi::{self, Owned};
use crate::{Error, FisRoom};

/// The control port of a multiplier.
pub const CONTROL_PORT: u8 = 15;

/// A Serial ATA port multiplier with 1 to 15 device ports, numbered from 0.
///
/// It may move to another thread. No two threads use it at once, since each call that changes it borrows it mutably and
/// it is not `Sync`.
///
/// ```
/// use gefsunk::{fis_text, Multiplier, CONTROL_PORT, FIS_ROOM};
///
/// let mut multiplier = Multiplier::new(4)?;
/// multiplier.plug(0)?;
/// assert_eq!(multiplier.register(CONTROL_PORT, 2)?, 4); // GSCR[2]: its ports
///
/// // READ PORT MULTIPLIER: SStatus of port 0.
/// let mut read = [0; 20];
/// read[..8].copy_from_slice(&[0x27, 0x8F, 0xE4, 0, 0, 0, 0, 0]);
/// multiplier.host_sends(&read)?;
/// let room = &mut [0; FIS_ROOM];
/// let (port, fis) = multiplier.next_for_host(room)?.expect("the control port answers");
/// assert_eq!(port, CONTROL_PORT);
/// assert!(fis_text(fis)?.starts_with("d2h port 15"));
/// # Ok::<(), gefsunk::Error>(())
/// ```
pub struct Multiplier {
    owned: Owned<ffi::Pm>,
}

impl Multiplier {
    /// A multiplier with so many device ports, none of which has a device.
    ///
    /// # Errors
    /// [`Error::BadPorts`] and [`Error::NoMemory`].
    pub fn new(ports: u8) -> Result<Multiplier, Error> {
        let owned = Owned::open(|pm| ffi::gef_pm_new(pm, ports))?;
        Ok(Multiplier { owned })
    }

    /// A multiplier whose port 0 is open from the start, for a host that knows no multipliers, with a device at
    /// it or none.
    ///
    /// # Errors
    /// [`Error::BadPorts`] and [`Error::NoMemory`].
    pub fn with_port_0_open(ports: u8, is_there: bool) -> Result<Multiplier, Error> {
        let is_there = u32::from(is_there);
        let owned = Owned::open(|pm| ffi::gef_pm_new_with_port_0_open(pm, ports, is_there))?;
        Ok(Multiplier { owned })
    }

    /// A device came to a port.
    ///
    /// # Errors
    /// [`Error::NoPort`], [`Error::AlreadyThere`] and [`Error::Spent`].
    pub fn plug(&mut self, port: u8) -> Result<(), Error> {
        self.owned.call(|pm| ffi::gef_pm_plug(pm, port))
    }

    /// The device of a port went. The FISes that wait for it or come from it are gone.
    ///
    /// # Errors
    /// [`Error::NoPort`] and [`Error::NotThere`].
    pub fn unplug(&mut self, port: u8) -> Result<(), Error> {
        self.owned.call(|pm| ffi::gef_pm_unplug(pm, port))
    }

    /// A FIS of the host arrives. Its PM Port says for whom it is.
    ///
    /// # Errors
    /// [`Error::Full`]: give the FIS again later. [`Error::Dropped`]: nobody takes it. [`Error::BadLength`] and
    /// [`Error::NoMemory`].
    pub fn host_sends(&mut self, fis: &[u8]) -> Result<(), Error> {
        self.owned.call(|pm| ffi::pm_from_host(pm, fis))
    }

    /// A FIS of the device at a port arrives.
    ///
    /// # Errors
    /// [`Error::Full`]: give the FIS again later. [`Error::Dropped`]: it is of a device that went. [`Error::NoPort`],
    /// [`Error::NotThere`], [`Error::BadLength`] and [`Error::NoMemory`].
    pub fn device_sends(&mut self, port: u8, fis: &[u8]) -> Result<(), Error> {
        self.owned.call(|pm| ffi::pm_from_device(pm, port, fis))
    }

    /// Takes the next FIS for the host, with the port that it comes from; `None` where none may go up now.
    ///
    /// # Errors
    /// [`Error::NoMemory`].
    pub fn next_for_host<'room>(
        &mut self,
        room: &'room mut FisRoom,
    ) -> Result<Option<(u8, &'room [u8])>, Error> {
        let mut port = 0;
        let len = self
            .owned
            .given(|pm, len| ffi::pm_to_host(pm, room, len, &mut port))?;
        Ok(len.map(|len| (port, &room[..len])))
    }

    /// Takes the FIS that waits for the device at a port; `None` where none waits.
    ///
    /// # Errors
    /// [`Error::NoPort`].
    pub fn next_for_device<'room>(
        &mut self,
        port: u8,
        room: &'room mut FisRoom,
    ) -> Result<Option<&'room [u8]>, Error> {
        let len = self
            .owned
            .given(|pm, len| ffi::pm_to_device(pm, port, room, len))?;
        Ok(len.map(|len| &room[..len]))
    }

    /// A register as the host sees it: of a device port 0 (SStatus), 1 (SError) or 2 (SControl); of the control port a
    /// general register.
    ///
    /// # Errors
    /// [`Error::NoPort`] and [`Error::NoRegister`].
    pub fn register(&mut self, port: u8, number: u16) -> Result<u32, Error> {
        self.owned
            .got(|pm, value| ffi::gef_pm_read(pm, port, number, value))
    }

    /// How many FISes of the host were dropped. The count stays at its largest value.
    ///
    /// # Errors
    /// None that these bindings leave possible.
    pub fn dropped(&mut self) -> Result<u32, Error> {
        self.owned.got(|pm, count| ffi::gef_pm_dropped(pm, count))
    }
}
