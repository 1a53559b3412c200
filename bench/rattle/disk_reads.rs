//! Reads of 256 sectors through a disk's `on_frame` and `next_out` alone, beside a plain copy of the same bytes.
#![tactic(auto)]

mod read_fis;

use disk_model::{Device, Disk, DiskPlan};
use fis_view::{Frame, h2d};
use read_fis::{STAMP, read_of};
use std::alloc::{AllocError, Global};
use std::io;
use std::time::Instant;

/// The bytes of one read.
const BYTES: usize = 131_072;

/// Serves the command so many times. Answers how many bytes all FISes had.
fn serve(alloc: Global, disk: &mut Disk, command: &Frame, reads: u32) -> Result<u64, AllocError> {
    let mut bytes: u64 = 0;
    for _ in 0..reads {
        disk.on_frame(alloc, command)?;
        // the D2H, 16 times DMA Setup and Data, the Set Device Bits FIS
        for _ in 0..34 {
            if let Some(frame) = disk.next_out(alloc, STAMP)? {
                bytes = bytes.wrapping_add(frame.bytes().len() as u64);
            }
        }
    }
    Ok(bytes)
}

/// Copies as many bytes, as often, in pieces of one Data FIS.
fn copy(alloc: Global, source: &[u8], reads: u32) -> Result<u64, AllocError> {
    let mut bytes: u64 = 0;
    for _ in 0..reads {
        for piece in source.chunks_exact(8192) {
            let copied = Vec::from_slice(alloc, piece)?;
            bytes = bytes.wrapping_add(copied.len() as u64);
        }
    }
    Ok(bytes)
}

fn main(rt: HostRuntime) -> io::Result<()> {
    let alloc = rt.alloc();
    let reads = 20_000;
    let Ok(mut disk) = Disk::new(alloc, 65_536, DiskPlan::plain()) else {
        println!(rt; "no memory")?;
        return Ok(());
    };
    let command = h2d(alloc, &read_of(256), STAMP)?;
    let source = vec![in alloc; 0x5A; BYTES]?;
    let start = Instant::now(&rt)?;
    let served = serve(alloc, &mut disk, &command, reads)?;
    let serving = start.elapsed(&rt)?.as_micros();
    let start = Instant::now(&rt)?;
    let copied = copy(alloc, &source, reads)?;
    let copying = start.elapsed(&rt)?.as_micros();
    println!(rt; "reads {reads} bytes {served} micros {serving}")?;
    println!(rt; "copies {reads} bytes {copied} micros {copying}")?;
    Ok(())
}
