//! The FIS of a read, for the programs here.

use fis_view::{H2dFields, Stamp};

/// The stamp of each frame.
pub const STAMP: Stamp = Stamp {
    port: 0,
    conn: 1,
    number: 0,
    shown: [0; 15],
};

/// A queued read of so many sectors, with tag 0.
pub fn read_of(sectors: u16) -> H2dFields {
    H2dFields {
        pm_port: 0,
        c: true,
        command: 0x60,
        features: sectors,
        lba: 1000,
        device: 0x40,
        count: 0,
        icc: 0,
        control: 0,
    }
}
