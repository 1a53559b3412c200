//! A machine with two disks behind a multiplier. The medium of the first answers at once; that of the second keeps its loads, which are
//! answered later, the last one first. The program plays the driver: it opens port 1, and reads two sectors of each disk, all four
//! commands issued before any is answered; then it writes a sector of each and reads it again.

use gefsunk::{
    Ahci, Answer, Error, Failure, Medium, Notice, Profile, Reply, Request, Width, SECTOR,
};

/// Registers of the port, and of the controller.
mod register {
    pub const GHC: u32 = 0x4;
    pub const GLOBAL_IS: u32 = 0x8;
    pub const CLB: u32 = 0x100;
    pub const FB: u32 = 0x108;
    pub const IS: u32 = 0x110;
    pub const IE: u32 = 0x114;
    pub const CMD: u32 = 0x118;
    pub const SIG: u32 = 0x124;
    pub const SACT: u32 = 0x134;
    pub const CI: u32 = 0x138;
    pub const FBS: u32 = 0x140;
}

/// Places in the guest's memory, which begins at 0: the command list, the received area, a table for each slot, and sectors.
const LIST: usize = 0x1000;
const AREA: usize = 0x2000;
const TABLES: usize = 0x4000;
const BUFFERS: usize = 0x8000;
const MEMORY: usize = 0x10000;

/// Sectors in a row. Where loads come late it keeps them: which they are, and from where they load how many bytes.
struct Sectors {
    port: u8,
    bytes: Vec<u8>,
    late: Option<Vec<(Request, u64, usize)>>,
}

impl Medium for Sectors {
    fn load(&mut self, request: Request, lba: u64, bytes: &mut [u8]) -> Result<Reply, Failure> {
        if let Some(late) = &mut self.late {
            println!("port {}: sector {lba} comes later", self.port);
            late.push((request, lba, bytes.len()));
            return Ok(Reply::Later);
        }
        println!("port {}: sector {lba} is loaded", self.port);
        self.bytes.load(request, lba, bytes)
    }

    fn store(&mut self, request: Request, lba: u64, bytes: &[u8]) -> Result<Reply, Failure> {
        println!("port {}: sector {lba} is stored", self.port);
        self.bytes.store(request, lba, bytes)
    }

    fn flush(&mut self, request: Request) -> Result<Reply, Failure> {
        self.bytes.flush(request)
    }
}

/// The machine with its guest's memory.
struct Computer {
    ahci: Ahci<Vec<u8>, Sectors>,
}

impl Computer {
    fn new() -> Result<Computer, Error> {
        let mut ahci = Ahci::new(2, true, vec![0; MEMORY])?;
        for (port, serial, late) in [(0, "ONE", None), (1, "TWO", Some(Vec::new()))] {
            let bytes = vec![0x11 * (port + 1); 64 * SECTOR];
            ahci.put_disk(
                port,
                &Profile::new(64, serial),
                Sectors { port, bytes, late },
            )?;
            ahci.plug(port)?;
        }
        ahci.power_on()?;
        Ok(Computer { ahci })
    }

    /// Does all that is to be done.
    fn settle(&mut self) -> Result<(), Error> {
        while let Some(notice) = self.ahci.next_notice()? {
            if let Notice::Line { up } = notice {
                println!("line {}", if up { "up" } else { "down" });
            }
        }
        Ok(())
    }

    /// Answers what came late at port 1, the last request first.
    fn answer_late(&mut self) -> Result<(), Error> {
        loop {
            let Some(medium) = self.ahci.medium_mut(1) else {
                return Ok(());
            };
            let Some((request, lba, len)) = medium.late.as_mut().and_then(Vec::pop) else {
                return Ok(());
            };
            let start = lba as usize * SECTOR;
            let bytes = medium.bytes[start..start + len].to_vec();
            println!("port 1: sector {lba} is there now");
            self.ahci.answer(&request, Answer::Loaded(&bytes))?;
            self.settle()?;
        }
    }

    fn read(&mut self, offset: u32) -> Result<u64, Error> {
        self.ahci.read(offset, Width::Dword)
    }

    fn write(&mut self, offset: u32, value: u32) -> Result<(), Error> {
        self.ahci.write(offset, Width::Dword, value.into())?;
        self.settle()
    }

    fn put32(&mut self, at: usize, value: u32) {
        self.ahci.memory_mut()[at..at + 4].copy_from_slice(&value.to_le_bytes());
    }

    /// The command of a slot: its header, its FIS, and one PRD where it moves a sector.
    fn command(&mut self, slot: u8, port: u8, fis: &[u8; 20], has_sector: bool) {
        let at = usize::from(slot);
        let (header, table, buffer) = (LIST + 32 * at, TABLES + 0x100 * at, BUFFERS + SECTOR * at);
        let write = if fis[2] == 0x61 { 0x40 } else { 0 };
        self.put32(
            header,
            5 | write | u32::from(port) << 12 | u32::from(has_sector) << 16,
        );
        self.put32(header + 4, 0);
        self.put32(header + 8, table as u32);
        self.ahci.memory_mut()[table..table + 20].copy_from_slice(fis);
        self.ahci.memory_mut()[table + 1] |= port;
        self.put32(table + 0x80, buffer as u32);
        self.put32(table + 0x8C, 511);
    }

    /// WRITE PORT MULTIPLIER: a register of a port of the multiplier.
    fn write_multiplier(&mut self, port: u8, number: u8, value: u32) -> Result<(), Error> {
        let mut fis = [0; 20];
        let [low, rest @ ..] = value.to_le_bytes();
        fis[..4].copy_from_slice(&[0x27, 0x80, 0xE8, number]);
        fis[4..7].copy_from_slice(&rest);
        fis[7] = port;
        fis[12] = low;
        self.command(0, 15, &fis, false);
        self.write(register::FBS, 1 | 15 << 8)?;
        self.write(register::CI, 1)
    }

    /// The port runs, with FIS-based switching, and port 1 of the multiplier is open as port 0 is.
    fn bring_up(&mut self) -> Result<(), Error> {
        self.write(register::CLB, LIST as u32)?;
        self.write(register::FB, AREA as u32)?;
        self.write(register::CMD, 0x20010)?; // PMA, FRE
        println!("PxSIG {:x}", self.read(register::SIG)?);
        self.write(register::FBS, 1 | 15 << 8)?;
        self.write(register::CMD, 0x20018)?; // CLO: no signature came from port 15
        self.write(register::CMD, 0x20011)?; // ST
        self.write_multiplier(1, 2, 0)?;
        self.write_multiplier(1, 1, u32::MAX)?;
        self.write(register::IS, u32::MAX)?;
        self.write(register::IE, 0x8)?;
        self.write(register::GHC, 2) // IE
    }

    /// A queued command of a sector, in this slot. Nothing is done for it yet.
    fn issue(&mut self, slot: u8, port: u8, code: u8, lba: u8) -> Result<(), Error> {
        let mut fis = [0; 20];
        fis[..8].copy_from_slice(&[0x27, 0x80, code, 1, lba, 0, 0, 0x40]);
        fis[12] = slot << 3;
        self.command(slot, port, &fis, true);
        for (offset, value) in [
            (register::FBS, 1 | u32::from(port) << 8),
            (register::SACT, 1 << slot),
            (register::CI, 1 << slot),
        ] {
            self.ahci.write(offset, Width::Dword, value.into())?;
        }
        Ok(())
    }

    /// The data of a slot.
    fn buffer(&mut self, slot: u8) -> &mut [u8] {
        &mut self.ahci.memory_mut()[BUFFERS + SECTOR * usize::from(slot)..][..SECTOR]
    }

    /// Prints what the guest sees, and takes its interrupts.
    fn show(&mut self, name: &str, slots: [u8; 4]) -> Result<(), Error> {
        let bytes = slots.map(|slot| self.buffer(slot)[0]);
        let (is, sact) = (self.read(register::IS)?, self.read(register::SACT)?);
        println!("{name}: PxIS {is:x}, PxSACT {sact:x}, {bytes:02x?}");
        self.write(register::IS, u32::MAX)?;
        self.write(register::GLOBAL_IS, u32::MAX)
    }
}

fn main() -> Result<(), Error> {
    let mut computer = Computer::new()?;
    computer.bring_up()?;
    let slots = [3, 4, 5, 6];
    for (slot, port, lba) in [(3, 0, 5), (4, 0, 6), (5, 1, 5), (6, 1, 6)] {
        computer.issue(slot, port, 0x60, lba)?;
    }
    computer.settle()?;
    computer.show("read", slots)?;
    computer.answer_late()?;
    computer.show("all read", slots)?;
    for (name, code) in [("written", 0x61), ("read again", 0x60)] {
        for (slot, port) in [(3, 0), (5, 1)] {
            computer
                .buffer(slot)
                .fill(if code == 0x61 { 0xA0 + port } else { 0 });
            computer.issue(slot, port, code, 5)?;
        }
        computer.settle()?;
        computer.answer_late()?;
        computer.show(name, slots)?;
    }

    // What comes after a pull is refused.
    computer.issue(5, 1, 0x60, 7)?;
    computer.settle()?;
    computer.ahci.pull(1)?;
    println!("after the pull: {}", computer.answer_late().unwrap_err());
    println!("port 2: {}", computer.ahci.plug(2).unwrap_err());
    println!("port 0: {}", computer.ahci.plug(0).unwrap_err());
    Ok(())
}
