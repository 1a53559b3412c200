//! A disk by FISes.

use crate::ffi::{self, Owned};
use crate::medium::{asks, Ask, Failure, Request, SectorRange};
use crate::{Error, FisRoom, Profile};

/// A SATA disk with native command queuing, whose sectors lie with the caller: FISes come and go, [`next_ask`](Disk::next_ask) says
/// what is to be loaded and stored, and [`Asks`](crate::Asks) has the answers.
///
/// It may move to another thread. No two threads use it at once.
///
/// ```
/// use gefsunk::{fis_text, Asks, Disk, Profile, FIS_ROOM, SECTOR};
///
/// let mut medium = vec![0x5A; 64 * SECTOR];
/// let mut disk = Disk::new(&Profile::new(64, "ONE"))?;
/// disk.plug()?;
///
/// // READ DMA EXT of sector 3.
/// let mut read = [0; 20];
/// read[..8].copy_from_slice(&[0x27, 0x80, 0x25, 0, 3, 0, 0, 0x40]);
/// read[12] = 1;
/// let (mut room, mut fis) = (Vec::new(), [0; FIS_ROOM]);
/// assert_eq!(disk.next_for_host(&mut fis)?.map(|fis| fis[0]), Some(0x34)); // its signature
/// disk.host_sends(&read)?;
/// while let Some(ask) = disk.next_ask()? {
///     disk.serve(&ask, &mut medium, &mut room)?;
/// }
/// let data = disk.next_for_host(&mut fis)?.expect("the disk has the sector");
/// assert_eq!(data.len(), 4 + SECTOR);
/// assert!(data[4..].iter().all(|byte| *byte == 0x5A));
/// # Ok::<(), gefsunk::Error>(())
/// ```
pub struct Disk {
    owned: Owned<ffi::Disk>,
}

asks!(Disk, |disk, request, number, range| {
    ffi::gef_disk_discarded(disk, &request.0, number, range)
});

impl Disk {
    /// A disk that is not plugged in yet.
    ///
    /// # Errors
    /// What is wrong with the profile, and [`Error::NoMemory`].
    pub fn new(profile: &Profile) -> Result<Disk, Error> {
        let owned = profile.with_raw(|raw| Owned::open(|handle| ffi::gef_disk_new(handle, raw)))?;
        Ok(Disk { owned })
    }

    /// The disk is plugged in: what was under way is gone, what its host set stays set, and it sends its signature next.
    ///
    /// # Errors
    /// None that these bindings leave possible.
    pub fn plug(&mut self) -> Result<(), Error> {
        self.owned.call(|disk| ffi::gef_disk_plug(disk))
    }

    /// A FIS of the host arrives.
    ///
    /// # Errors
    /// [`Error::Dropped`]: the disk does not hear it. [`Error::NoMemory`]: give it again. [`Error::BadLength`].
    pub fn host_sends(&mut self, fis: &[u8]) -> Result<(), Error> {
        self.owned.call(|disk| ffi::disk_from_host(disk, fis))
    }

    /// Takes the next FIS for the host; `None` where the disk owes none, or waits for data or for an answer.
    ///
    /// # Errors
    /// [`Error::NoMemory`].
    pub fn next_for_host<'room>(
        &mut self,
        room: &'room mut FisRoom,
    ) -> Result<Option<&'room [u8]>, Error> {
        let len = self
            .owned
            .given(|disk, len| ffi::disk_to_host(disk, room, len))?;
        Ok(len.map(|len| &room[..len]))
    }

    /// What is to be done to the medium next. Ask after each FIS, and after each answer.
    ///
    /// # Errors
    /// [`Error::NoMemory`].
    pub fn next_ask(&mut self) -> Result<Option<Ask>, Error> {
        Ok(Ask::shown(&self.owned.next(ffi::gef_disk_next)?))
    }
}
