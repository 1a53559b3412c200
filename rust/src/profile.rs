//! What a disk says of itself.

use std::ffi::CString;

use crate::{ffi, Error};

/// Bytes of a sector.
pub const SECTOR: usize = 512;

/// The least bound in bytes of what the commands of a disk hold.
pub const LEAST_LIMIT: u32 = 1 << 20;

/// How fast a medium turns.
#[derive(Debug, Clone, Copy, PartialEq, Eq, Hash, Default)]
pub enum Rotation {
    /// Nothing is said.
    #[default]
    Unsaid,
    /// It does not turn.
    Solid,
    /// So many turns a minute, 1,025 to 65,534.
    Rpm(u16),
}

/// What a disk says of itself (IDENTIFY DEVICE), and a bound.
#[derive(Debug, Clone, PartialEq, Eq)]
pub struct Profile {
    /// The model number, at most 40 characters of printable ASCII.
    pub model: String,
    /// The serial number, at most 20. Give each disk of a guest its own.
    pub serial: String,
    /// The firmware revision, at most 8.
    pub firmware: String,
    /// How many sectors of 512 bytes it has, 1 to 2^48 - 1.
    pub sectors: u64,
    /// The world wide name.
    pub wwn: Option<u64>,
    /// Bytes of a physical sector, 512 or 4,096.
    pub physical: u32,
    /// How fast its medium turns.
    pub rotation: Rotation,
    /// How many queued commands it takes, 1 to 32.
    pub depth: u32,
    /// Whether it takes DATA SET MANAGEMENT with TRIM, and may ask for a discard.
    pub trim: bool,
    /// The most bytes that its commands hold at a time, [`LEAST_LIMIT`] or more.
    pub limit: u32,
}

impl Profile {
    /// A disk with so many sectors and this serial number, a queue of 32 commands and a medium that does not turn.
    pub fn new(sectors: u64, serial: impl Into<String>) -> Profile {
        Profile {
            model: "GEFSUNK DISK".into(),
            serial: serial.into(),
            firmware: "1".into(),
            sectors,
            wwn: None,
            physical: 512,
            rotation: Rotation::Solid,
            depth: 32,
            trim: true,
            limit: LEAST_LIMIT,
        }
    }

    /// Has a call made with what C reads of it.
    pub(crate) fn with_raw<T>(
        &self,
        call: impl FnOnce(&ffi::DiskProfile<'_>) -> Result<T, Error>,
    ) -> Result<T, Error> {
        let text = |text: &str| CString::new(text).map_err(|_| Error::BadText);
        let (model, serial, firmware) = (
            text(&self.model)?,
            text(&self.serial)?,
            text(&self.firmware)?,
        );
        call(&ffi::DiskProfile {
            model: ffi::Text::of(&model),
            serial: ffi::Text::of(&serial),
            firmware: ffi::Text::of(&firmware),
            sectors: self.sectors,
            wwn: self.wwn.unwrap_or(0),
            physical: self.physical,
            rotation: match self.rotation {
                Rotation::Unsaid => 0,
                Rotation::Solid => 1,
                // No such speed is 0 or 1: those would say something else.
                Rotation::Rpm(turns) => u32::from(turns.max(2)),
            },
            depth: self.depth,
            trim: u32::from(self.trim),
            limit: self.limit,
        })
    }
}
