//! Queued reads through a host port: the command is issued and sent, and its FISes are taken. Beside a plain copy of the
//! same bytes.
#![tactic(auto)]

mod read_fis;
mod reads;

use hba_fbs::HostPort;
use host_memory::HostMemory;
use reads::{Fises, served_by, started, table, write_read};
use std::alloc::{AllocError, Global};
use std::io;
use std::time::Instant;

/// How many bytes are read in each row, in all.
const ALL: u32 = 4_194_304;

/// Sectors of a read, PRDs of its table, bytes of a Data FIS, DMA Setups of a read.
const ROWS: [(u16, u32, u32, u32); 10] = [
    (1, 1, 512, 1),
    (1, 32, 512, 1),
    (1, 248, 512, 1),
    (256, 1, 512, 1),
    (256, 1, 512, 256),
    (256, 32, 512, 1),
    (256, 248, 512, 1),
    (256, 1, 8192, 1),
    (256, 32, 8192, 1),
    (256, 248, 8192, 1),
];

/// Reads once. Answers whether slot 0 is done.
fn read(
    alloc: Global,
    port: &mut HostPort,
    memory: &mut HostMemory,
    fises: &Fises,
) -> Result<bool, AllocError> {
    let _ = port.write(0x34, 1, memory);
    let _ = port.write(0x38, 1, memory);
    let _ = port.next_out(alloc, memory)?;
    let _ = port.take(&fises.answer, memory);
    for setup in &fises.setups {
        let _ = port.take(setup, memory);
        for _ in 0..fises.pieces {
            let _ = port.take(&fises.data, memory);
        }
    }
    Ok(port.take(&fises.bits, memory).done == 1)
}

/// Reads so often. Answers how many reads were done.
fn read_all(
    alloc: Global,
    port: &mut HostPort,
    memory: &mut HostMemory,
    fises: &Fises,
    reads: u32,
) -> Result<u32, AllocError> {
    let mut done: u32 = 0;
    for _ in 0..reads {
        if read(alloc, port, memory, fises)? {
            done = done.wrapping_add(1);
        }
    }
    Ok(done)
}

/// Copies as many bytes, a read at a time. Answers how many reads.
fn copy(target: &mut [u8], source: &[u8], reads: u32) -> u32 {
    let mut copied: u32 = 0;
    for _ in 0..reads {
        if target.len() == source.len() {
            target.copy_from_slice(source);
            copied = copied.wrapping_add(1);
        }
    }
    copied
}

fn row(
    rt: &HostRuntime,
    sectors: u16,
    count: u32,
    piece: u32,
    setups: u32,
) -> io::Result<()> {
    let alloc = rt.alloc();
    let total = 512 * u32::from(sectors);
    let Ok(mut memory) = HostMemory::new(alloc, 0x20_0000) else {
        println!(rt; "no memory")?;
        return Ok(());
    };
    let Ok(fises) = served_by(alloc, total, piece, setups) else {
        println!(rt; "no memory")?;
        return Ok(());
    };
    let prds = table(alloc, total, count)?;
    write_read(&mut memory, sectors, &prds);
    let mut port = started(&memory);
    let reads = ALL.checked_div(total).unwrap_or(0);
    let start = Instant::now(rt)?;
    let done = read_all(alloc, &mut port, &mut memory, &fises, reads)?;
    let taking = start.elapsed(rt)?.as_micros();
    let source = vec![in alloc; 0x5A; total as usize]?;
    let mut target = vec![in alloc; 0; total as usize]?;
    let start = Instant::now(rt)?;
    let copied = copy(&mut target, &source, reads);
    let copying = start.elapsed(rt)?.as_micros();
    let read = done.wrapping_mul(total);
    let bytes = copied.wrapping_mul(total);
    println!(rt; "row {sectors} {count} {piece} {setups} read {read} micros {taking} copied {bytes} micros {copying}")?;
    Ok(())
}

fn main(rt: HostRuntime) -> io::Result<()> {
    for (sectors, count, piece, setups) in ROWS {
        row(&rt, sectors, count, piece, setups)?;
    }
    Ok(())
}
