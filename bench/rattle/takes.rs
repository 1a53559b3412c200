//! Queued reads of 256 sectors through a host port, over a PRD table of so many entries and by Data FISes of so many
//! bytes, so often:
//!
//!     takes PRDS BYTES READS
//!
//! It prints how many reads were done. `bench/takes` counts the instructions of `take` below `take_data`.
#![tactic(auto)]

mod read_fis;
mod reads;

use fis_view::{Frame, FrameError};
use hba_fbs::{HostPort, TakeReport};
use host_memory::HostMemory;
use reads::{Fises, served_by, started, table, write_read};
use std::alloc::{AllocError, Global};
use std::{env, io};

/// The bytes of one read.
const TOTAL: u32 = 131_072;

/// The one place that calls `HostPort::take`, so that it is compiled once.
#[inline(never)]
fn take(port: &mut HostPort, frame: &Frame, memory: &mut HostMemory) -> TakeReport {
    port.take(frame, memory)
}

/// Takes so many Data FISes, and nothing else.
#[inline(never)]
fn take_data(port: &mut HostPort, data: &Frame, memory: &mut HostMemory, pieces: u32) {
    for _ in 0..pieces {
        let _ = take(port, data, memory);
    }
}

/// Reads once. Answers whether slot 0 is done.
fn read(
    alloc: Global,
    port: &mut HostPort,
    memory: &mut HostMemory,
    fises: &Fises,
) -> Result<bool, AllocError> {
    let _ = port.write(0x34, 1, memory);
    let _ = port.write(0x38, 1, memory);
    let _ = port.next_out(alloc, memory)?;
    let _ = take(port, &fises.answer, memory);
    for setup in &fises.setups {
        let _ = take(port, setup, memory);
        take_data(port, &fises.data, memory, fises.pieces);
    }
    Ok(take(port, &fises.bits, memory).done == 1)
}

/// Reads so often. Answers how many reads were done.
fn read_all(alloc: Global, count: u32, piece: u32, reads: u32) -> Result<u32, FrameError> {
    let fises = served_by(alloc, TOTAL, piece, 1)?;
    let Ok(mut memory) = HostMemory::new(alloc, 0x20_0000) else {
        return Err(FrameError::OutOfMemory);
    };
    let prds = table(alloc, TOTAL, count)?;
    write_read(&mut memory, 256, &prds);
    let mut port = started(&memory);
    let mut done: u32 = 0;
    for _ in 0..reads {
        if read(alloc, &mut port, &mut memory, &fises)? {
            done = done.wrapping_add(1);
        }
    }
    Ok(done)
}

/// The numbers of the command line; 0 for what is none.
fn numbers(rt: &HostRuntime) -> io::Result<Vec<u32>> {
    let mut numbers = Vec::new(rt.alloc());
    for word in env::args(rt)?.skip(1) {
        numbers.push(word.parse().unwrap_or(0))?;
    }
    Ok(numbers)
}

fn main(rt: HostRuntime) -> io::Result<()> {
    let numbers = numbers(&rt)?;
    let (Some(count), Some(piece), Some(reads)) = (numbers.get(0), numbers.get(1), numbers.get(2))
    else {
        return Ok(());
    };
    match read_all(rt.alloc(), *count, *piece, *reads) {
        Ok(done) => println!(&rt; "done {done}"),
        Err(_) => println!(&rt; "no memory"),
    }
}
