//! A queued read through a host port, for the programs here: its table, its FISes, and the port.

ghost use Rattle.std.specs.Prelude.{◌↔◌, All, IsTrue};
ghost use Rattle.host_memory.specs.Writing.{CanBeWritten};

use crate::read_fis::{STAMP, read_of};
use fis_view::{Frame, FrameError, payload};
use hba_commands::write_command;
use hba_fbs::HostPort;
use host_memory::{HostMemory, Prd};
use std::alloc::{AllocError, Global};

fn can_be_written(prds: &[Prd]) -> bool
    ensures { IsTrue result ↔ All CanBeWritten prds.now }
{
    prds.iter()
        .all(|prd| 1 <= prd.bytes && prd.bytes <= 0x40_0000)
}

/// So many entries for so many bytes, with room between them: of one even length, and the last with the rest.
pub fn table(alloc: Global, total: u32, count: u32) -> Result<Vec<Prd>, AllocError> {
    let each = total.checked_div(count).unwrap_or(0) / 2 * 2;
    let mut prds = Vec::with_capacity(alloc, count as usize)?;
    for k in 0..count {
        let before = k.wrapping_mul(each);
        let bytes = if k == count.wrapping_sub(1) {
            total.wrapping_sub(before)
        } else {
            each
        };
        let address = 0x10_1000_u32.wrapping_add(before).wrapping_add(16_u32.wrapping_mul(k));
        prds.push(Prd { address, bytes })?;
    }
    Ok(prds)
}

/// The FISes of a device that serves a read.
#[derive(Drop)]
pub struct Fises {
    pub answer: Frame,
    pub setups: Vec<Frame>,
    /// How many Data FISes follow each setup.
    pub pieces: u32,
    pub data: Frame,
    pub bits: Frame,
}

/// So many setups, one after the other, for as many bytes each.
fn setups_of(alloc: Global, total: u32, count: u32) -> Result<Vec<Frame>, FrameError> {
    let each = total.checked_div(count).unwrap_or(0);
    let mut setups = Vec::with_capacity(alloc, count as usize)?;
    for k in 0..count {
        let mut setup = [0; 28];
        setup[0] = 0x41;
        setup[1] = 0x20;
        setup[16..20].copy_from_slice(&k.wrapping_mul(each).to_le_bytes());
        setup[20..24].copy_from_slice(&each.to_le_bytes());
        let frame = Frame::from_bytes(alloc, &setup, STAMP)?;
        if setups.push(frame).is_err() {
            return Err(FrameError::OutOfMemory);
        }
    }
    Ok(setups)
}

/// One read of so many bytes, by Data FISes of so many, with so many setups.
pub fn served_by(alloc: Global, total: u32, piece: u32, count: u32) -> Result<Fises, FrameError> {
    let mut answer = [0; 20];
    answer[0] = 0x34;
    answer[2] = 0x50;
    let bytes = vec![in alloc; 0x5A; piece as usize]?;
    Ok(Fises {
        answer: Frame::from_bytes(alloc, &answer, STAMP)?,
        setups: setups_of(alloc, total, count)?,
        pieces: total.checked_div(piece.wrapping_mul(count)).unwrap_or(0),
        data: payload(alloc, 0, &bytes, STAMP)?,
        bits: Frame::from_bytes(alloc, &[0xA1, 0, 0x50, 0, 1, 0, 0, 0], STAMP)?,
    })
}

/// Writes the read into slot 0, if its table can be one.
pub fn write_read(memory: &mut HostMemory, sectors: u16, prds: &[Prd]) {
    if prds.len() > 248 || !can_be_written(prds) {
        return;
    }
    write_command(memory, 0, 0, 0x2000, &read_of(sectors), prds);
}

/// A port that runs.
pub fn started(memory: &HostMemory) -> HostPort {
    let mut port = HostPort::new();
    let _ = port.write(0x08, 0x1000, memory);
    let _ = port.write(0x40, 1, memory);
    let _ = port.write(0x18, 0x11, memory);
    port
}
