//! Each call of the crates below a world that takes memory, made again where memory is refused: frames and their builders,
//! memory, links, a script, and a host port, a multiplier and a disk in a loop. What each call answers is told in full. So
//! whichever allocation is refused, the program tells the same, but for one line `refused NAME`, which names the call that
//! answered its error.
#![tactic(auto)]

ghost use Rattle.std.specs.Prelude.{IsTrue, ◌<◌};

use disk_model::{Device, Disk, DiskPlan, Scripted};
use fis_view::{
    Bytes, D2hFields, DmaActivateFields, DmaSetupFields, Frame, FrameError, H2dFields,
    PioSetupFields, SetBitsFields, Stamp, d2h, dma_activate, dma_setup, h2d, payload, pio_setup,
    set_bits,
};
use hba_driver::{Driver, Request, Work};
use hba_fbs::HostPort;
use host_memory::{HostMemory, MemoryError, Prd};
use multiplier::{Multiplier, Passed, PmRefusal};
use pm_control::PmControl;
use pm_registers::PmRegisters;
use ruled_links::{Link, LinkError};
use std::alloc::{AllocError, Global};
use std::fmt::{self, Write};
use std::io;

/// A text as a number (FNV-1a), which takes no memory.
#[derive(Drop)]
struct Digest(u64);

impl fmt::Write for Digest {
    fn write_str(&mut self, text: &str) -> fmt::Result {
        for byte in text.as_bytes().iter() {
            self.0 = (self.0 ^ u64::from(*byte)).wrapping_mul(0x100_0000_01B3);
        }
        Ok(())
    }
}

const STAMP: Stamp = Stamp {
    port: 0,
    conn: 1,
    number: 7,
    shown: [0; 15],
};

/// A queued read of one sector.
const READ: [u8; 20] = [
    0x27, 0x80, 0x60, 0x01, 0, 0x01, 0, 0x40, 0, 0, 0, 0, 0x28, 0, 0, 0, 0, 0, 0, 0,
];

/// FLUSH CACHE EXT.
const FLUSH: [u8; 20] = [
    0x27, 0x80, 0xEA, 0, 0, 0, 0, 0, 0, 0, 0, 0, 0, 0, 0, 0, 0, 0, 0, 0,
];

/// READ PORT MULTIPLIER of PSCR[0] of port 0.
const READ_STATUS: [u8; 20] = [
    0x27, 0x8F, 0xE4, 0, 0, 0, 0, 0, 0, 0, 0, 0, 0, 0, 0, 0, 0, 0, 0, 0,
];

/// WRITE PORT MULTIPLIER that enables notifications.
const ENABLE: [u8; 20] = [
    0x27, 0x8F, 0xE8, 0x60, 0, 0, 0, 0x0F, 0, 0, 0, 0, 0x08, 0, 0, 0, 0, 0, 0, 0,
];

/// A call answered that memory is refused.
fn refused(rt: &HostRuntime, name: &str) -> io::Result<()> {
    println!(rt; "refused {name}")
}

/// Tells a frame.
fn tell(rt: &HostRuntime, name: &str, frame: &Frame) -> io::Result<()> {
    let mut digest = Digest(0xCBF2_9CE4_8422_2325);
    let _ = write!(digest, "{frame:?}");
    let number = digest.0;
    let len = frame.bytes().len();
    println!(rt; "{name}: {len} bytes, {number:016x}")
}

/// Tells that there is no frame, or which.
fn tell_next(rt: &HostRuntime, name: &str, next: &Option<Frame>) -> io::Result<()> {
    match next {
        Some(frame) => tell(rt, name, frame),
        None => println!(rt; "{name}: none"),
    }
}

/// A call that gives a frame.
#[derive(Clone, Copy)]
enum Made {
    FromBytes,
    H2d,
    D2h,
    SetBits,
    DmaActivate,
    DmaSetup,
    PioSetup,
    Payload,
}

impl Made {
    const ALL: [Made; 8] = [
        Made::FromBytes,
        Made::H2d,
        Made::D2h,
        Made::SetBits,
        Made::DmaActivate,
        Made::DmaSetup,
        Made::PioSetup,
        Made::Payload,
    ];

    fn name(self) -> &'static str {
        match self {
            Made::FromBytes => "Frame::from_bytes",
            Made::H2d => "h2d",
            Made::D2h => "d2h",
            Made::SetBits => "set_bits",
            Made::DmaActivate => "dma_activate",
            Made::DmaSetup => "dma_setup",
            Made::PioSetup => "pio_setup",
            Made::Payload => "payload",
        }
    }

    fn make(self, alloc: Global) -> Result<Frame, FrameError> {
        match self {
            Made::FromBytes => Frame::from_bytes(alloc, &READ, STAMP),
            Made::H2d => Ok(h2d(alloc, &H2D, STAMP)?),
            Made::D2h => Ok(d2h(alloc, &D2H, STAMP)?),
            Made::SetBits => Ok(set_bits(alloc, &SET_BITS, STAMP)?),
            Made::DmaActivate => Ok(dma_activate(alloc, &DmaActivateFields { pm_port: 3 }, STAMP)?),
            Made::DmaSetup => Ok(dma_setup(alloc, &DMA_SETUP, STAMP)?),
            Made::PioSetup => Ok(pio_setup(alloc, &PIO_SETUP, STAMP)?),
            Made::Payload => payload(alloc, 3, &[7; 8192], STAMP),
        }
    }
}

const H2D: H2dFields = H2dFields {
    pm_port: 3,
    c: true,
    command: 0x60,
    features: 1,
    lba: 0x100,
    device: 0x40,
    count: 0x28,
    icc: 0,
    control: 0,
};

const D2H: D2hFields = D2hFields {
    pm_port: 3,
    i: true,
    status: 0x50,
    error: 0,
    lba: 1,
    device: 0,
    count: 1,
};

const SET_BITS: SetBitsFields = SetBitsFields {
    pm_port: 3,
    n: false,
    i: true,
    status: 0x50,
    error: 0,
    sactive: 0x20,
};

const DMA_SETUP: DmaSetupFields = DmaSetupFields {
    pm_port: 3,
    a: false,
    i: false,
    d: true,
    buffer_id: 5,
    offset: 512,
    count: 512,
};

const PIO_SETUP: PioSetupFields = PioSetupFields {
    pm_port: 3,
    i: true,
    d: true,
    status: 0x58,
    error: 0,
    lba: 0,
    device: 0,
    count: 0,
    e_status: 0x50,
    transfer: 512,
};

/// The frame that a call gives.
fn frame_by(rt: &HostRuntime, what: Made) -> io::Result<Frame> {
    let mut given = what.make(rt.alloc());
    if given.is_err() {
        refused(rt, what.name())?;
        given = what.make(rt.alloc());
    }
    match given {
        Ok(frame) => Ok(frame),
        Err(_) => Err(AllocError.into()),
    }
}

/// A frame with these bytes.
fn frame_of(rt: &HostRuntime, bytes: &[u8]) -> io::Result<Frame> {
    let mut given = Frame::from_bytes(rt.alloc(), bytes, STAMP);
    if given.is_err() {
        refused(rt, "Frame::from_bytes")?;
        given = Frame::from_bytes(rt.alloc(), bytes, STAMP);
    }
    match given {
        Ok(frame) => Ok(frame),
        Err(_) => Err(AllocError.into()),
    }
}

/// The copy of a frame.
fn copy_of(rt: &HostRuntime, frame: &Frame) -> io::Result<Frame> {
    let mut given = frame.copy(rt.alloc());
    if given.is_err() {
        refused(rt, "Frame::copy")?;
        given = frame.copy(rt.alloc());
    }
    Ok(given?)
}

/// A call that gives a frame, and a copy of that.
fn give(rt: &HostRuntime, what: Made) -> io::Result<()> {
    let frame = frame_by(rt, what)?;
    tell(rt, what.name(), &frame)?;
    let copy = copy_of(rt, &frame)?;
    tell(rt, "Frame::copy", &copy)
}

/// The calls that give frames.
fn frames(rt: &HostRuntime) -> io::Result<()> {
    for what in Made::ALL {
        give(rt, what)?;
    }
    Ok(())
}

/// Whether port 0 is there.
fn has_first(registers: &PmRegisters) -> bool
    ensures { IsTrue result → 0 < registers.now.ports }
{
    match registers.read(15, 2) {
        Ok(ports) => 0 < ports,
        Err(_) => false,
    }
}

/// What the control port answers to these bytes.
fn answer(
    rt: &HostRuntime,
    port: &mut PmControl,
    registers: &mut PmRegisters,
    bytes: &[u8],
) -> io::Result<()> {
    let frame = frame_of(rt, bytes)?;
    let mut given = port.answer(rt.alloc(), registers, &frame, STAMP);
    if given.is_err() {
        refused(rt, "PmControl::answer")?;
        given = port.answer(rt.alloc(), registers, &frame, STAMP);
    }
    tell_next(rt, "PmControl::answer", &given?)
}

/// What the control port notifies.
fn notice(rt: &HostRuntime, registers: &mut PmRegisters) -> io::Result<()> {
    let mut given = PmControl::notice(rt.alloc(), registers, STAMP);
    if given.is_err() {
        refused(rt, "PmControl::notice")?;
        given = PmControl::notice(rt.alloc(), registers, STAMP);
    }
    tell_next(rt, "PmControl::notice", &given?)
}

/// The control port by itself: two answers, and a notification.
fn control(rt: &HostRuntime) -> io::Result<()> {
    let mut registers = PmRegisters::new(2);
    let mut port = PmControl::new();
    answer(rt, &mut port, &mut registers, &READ_STATUS)?;
    answer(rt, &mut port, &mut registers, &ENABLE)?;
    if has_first(&registers) {
        registers.raise(0, 0x400_0000);
    }
    notice(rt, &mut registers)?;
    notice(rt, &mut registers)
}

/// Memory of a host.
fn memory(rt: &HostRuntime) -> io::Result<HostMemory> {
    let mut given = HostMemory::new(rt.alloc(), 0x20_0000);
    if given.is_err() {
        refused(rt, "HostMemory::new")?;
        given = HostMemory::new(rt.alloc(), 0x20_0000);
    }
    match given {
        Ok(memory) => Ok(memory),
        Err(MemoryError::OutOfMemory | MemoryError::BadSize) => Err(AllocError.into()),
    }
}

/// A link of frames between threads.
fn link(rt: &HostRuntime) -> io::Result<()> {
    let mut given: Result<Link<u32>, LinkError> = Link::new(rt.alloc(), 4);
    if given.is_err() {
        refused(rt, "Link::new")?;
        given = Link::new(rt.alloc(), 4);
    }
    let made = given.is_ok();
    println!(rt; "Link::new: {made}")
}

/// A disk of 16 sectors.
fn disk(rt: &HostRuntime) -> io::Result<Disk> {
    let mut given = Disk::new(rt.alloc(), 16, DiskPlan::plain());
    if given.is_err() {
        refused(rt, "Disk::new")?;
        given = Disk::new(rt.alloc(), 16, DiskPlan::plain());
    }
    match given {
        Ok(disk) => Ok(disk),
        Err(_) => Err(AllocError.into()),
    }
}

/// A device is plugged in.
fn plug<D: Device>(rt: &HostRuntime, name: &str, device: &mut D) -> io::Result<()> {
    let mut given = device.plugged(rt.alloc());
    if given.is_err() {
        refused(rt, name)?;
        given = device.plugged(rt.alloc());
    }
    Ok(given?)
}

/// A device takes a frame.
fn hear<D: Device>(rt: &HostRuntime, name: &str, device: &mut D, frame: &Frame) -> io::Result<()> {
    let mut given = device.on_frame(rt.alloc(), frame);
    if given.is_err() {
        refused(rt, name)?;
        given = device.on_frame(rt.alloc(), frame);
    }
    Ok(given?)
}

/// A device sends a frame, if it has one.
fn send<D: Device>(rt: &HostRuntime, name: &str, device: &mut D) -> io::Result<Option<Frame>> {
    let mut given = device.next_out(rt.alloc(), STAMP);
    if given.is_err() {
        refused(rt, name)?;
        given = device.next_out(rt.alloc(), STAMP);
    }
    let next = given?;
    tell_next(rt, name, &next)?;
    Ok(next)
}

/// A device of two frames.
fn scripted(alloc: Global) -> Result<Scripted, AllocError> {
    let mut frames = Vec::new(alloc);
    frames.push(Bytes::from_slice(alloc, &[0xA1, 0xC0, 0x50, 0, 0, 0, 0, 0])?)?;
    frames.push(Bytes::from_slice(alloc, &[0x39, 0, 0, 0])?)?;
    Ok(Scripted::new(frames))
}

/// The calls on a script.
fn script(rt: &HostRuntime) -> io::Result<()> {
    let mut device = match scripted(rt.alloc()) {
        Ok(device) => device,
        Err(_) => scripted(rt.alloc())?,
    };
    plug(rt, "Scripted::plugged", &mut device)?;
    let frame = frame_of(rt, &READ)?;
    hear(rt, "Scripted::on_frame", &mut device, &frame)?;
    for _ in 0..3 {
        let _ = send(rt, "Scripted::next_out", &mut device)?;
    }
    Ok(())
}

/// A disk that takes more commands than it has room for answers at first, and then sends them.
fn owe(rt: &HostRuntime) -> io::Result<()> {
    let mut device = disk(rt)?;
    plug(rt, "Disk::plugged", &mut device)?;
    let frame = frame_of(rt, &FLUSH)?;
    for _ in 0..100 {
        hear(rt, "Disk::on_frame", &mut device, &frame)?;
    }
    for _ in 0..102 {
        let _ = send(rt, "Disk::next_out", &mut device)?;
    }
    Ok(())
}

/// A host port with its driver, a multiplier of one port, and a disk at it.
#[derive(Drop)]
struct Ring {
    driver: Driver,
    port: HostPort,
    memory: HostMemory,
    multiplier: Multiplier,
    disk: Disk,
}

/// Whether the multiplier has port 0.
fn has_port(pm: &Multiplier) -> bool
    ensures { IsTrue result → 0 < pm.now.registers.ports }
{
    has_first(pm.registers())
}

/// Gives the multiplier a frame of the host.
fn pass(rt: &HostRuntime, pm: &mut Multiplier, frame: Frame) -> io::Result<()> {
    let passed = match pm.from_host(rt.alloc(), frame) {
        Err((frame, PmRefusal::OutOfMemory)) => {
            refused(rt, "Multiplier::from_host")?;
            pm.from_host(rt.alloc(), frame)
        }
        given => given,
    };
    match passed {
        Ok(Passed::Control) => println!(rt; "Multiplier::from_host: Control"),
        Ok(Passed::Down(n)) => println!(rt; "Multiplier::from_host: Down({n})"),
        Ok(Passed::Dropped) => println!(rt; "Multiplier::from_host: Dropped"),
        Err((_, refusal)) => println!(rt; "Multiplier::from_host: {refusal:?}"),
    }
}

/// The multiplier's next frame for the host.
fn next_up(rt: &HostRuntime, pm: &mut Multiplier) -> io::Result<Option<Frame>> {
    let mut given = pm.next_up(rt.alloc());
    if given.is_err() {
        refused(rt, "Multiplier::next_up")?;
        given = pm.next_up(rt.alloc());
    }
    let next = given?;
    tell_next(rt, "Multiplier::next_up", &next)?;
    Ok(next)
}

impl Ring {
    /// The host does what is next, and the multiplier gets its frame.
    fn push(&mut self, rt: &HostRuntime) -> io::Result<()> {
        let acted = self.driver.tick(&mut self.port, &mut self.memory);
        println!(rt; "tick: {acted}")?;
        match self.next_out(rt)? {
            Some(frame) => pass(rt, &mut self.multiplier, frame),
            None => Ok(()),
        }
    }

    /// The next frame of the host port.
    fn next_out(&mut self, rt: &HostRuntime) -> io::Result<Option<Frame>> {
        let mut given = self.port.next_out(rt.alloc(), &self.memory);
        if given.is_err() {
            refused(rt, "HostPort::next_out")?;
            given = self.port.next_out(rt.alloc(), &self.memory);
        }
        let next = given?;
        tell_next(rt, "HostPort::next_out", &next)?;
        Ok(next)
    }

    /// The disk takes the frame that is for it, and sends one.
    fn serve(&mut self, rt: &HostRuntime) -> io::Result<()> {
        if !has_port(&self.multiplier) {
            return Ok(());
        }
        if let Some(frame) = self.multiplier.next_down(0) {
            hear(rt, "Disk::on_frame", &mut self.disk, &frame)?;
        }
        if !has_port(&self.multiplier) || self.multiplier.hold(0).is_some() {
            return Ok(());
        }
        if let Some(frame) = send(rt, "Disk::next_out", &mut self.disk)? {
            if has_port(&self.multiplier) {
                let _ = self.multiplier.from_device(0, frame);
            }
        }
        Ok(())
    }

    /// The host takes the multiplier's next frame.
    fn take(&mut self, rt: &HostRuntime) -> io::Result<()> {
        match next_up(rt, &mut self.multiplier)? {
            Some(frame) => {
                let report = self.port.take(&frame, &mut self.memory);
                println!(rt; "take: {report:?}")
            }
            None => Ok(()),
        }
    }

    fn rounds(&mut self, rt: &HostRuntime, count: u8) -> io::Result<()> {
        for _ in 0..count {
            self.push(rt)?;
            self.serve(rt)?;
            self.take(rt)?;
        }
        Ok(())
    }

    /// A request of one sector is given, served and polled.
    fn ask(&mut self, rt: &HostRuntime, request: &Request) -> io::Result<()> {
        let given = self.driver.submit(&mut self.memory, 0, request);
        println!(rt; "submit: {given:?}")?;
        self.rounds(rt, 12)?;
        let polled = self.driver.poll();
        println!(rt; "poll: {polled:?}")
    }
}

/// A request of one sector.
fn request(alloc: Global, work: Work) -> Result<Request, AllocError> {
    let mut prds = Vec::new(alloc);
    prds.push(Prd {
        address: 0x10_1000,
        bytes: 512,
    })?;
    Ok(Request {
        work,
        lba: 5,
        sectors: 1,
        prds,
    })
}

/// The disk of a ring is plugged in.
fn plugged(rt: &HostRuntime) -> io::Result<Disk> {
    let mut device = disk(rt)?;
    plug(rt, "Disk::plugged", &mut device)?;
    Ok(device)
}

/// A ring whose disk has come.
fn joined(rt: &HostRuntime) -> io::Result<Ring> {
    let memory = memory(rt)?;
    let disk = plugged(rt)?;
    let mut multiplier = Multiplier::new(1);
    if has_port(&multiplier) {
        let _ = multiplier.came(0, 1);
    }
    Ok(Ring {
        driver: Driver::new(),
        port: HostPort::new(),
        memory,
        multiplier,
        disk,
    })
}

/// The calls on a host port, a multiplier and a disk: the disk comes up, a sector of it is read, and written.
fn go_round(rt: &HostRuntime) -> io::Result<()> {
    let mut ring = joined(rt)?;
    ring.rounds(rt, 60)?;
    for work in [Work::Read, Work::Write] {
        let request = match request(rt.alloc(), work) {
            Ok(request) => request,
            Err(_) => request(rt.alloc(), work)?,
        };
        ring.ask(rt, &request)?;
    }
    Ok(())
}

fn main(rt: HostRuntime) -> io::Result<()> {
    frames(&rt)?;
    control(&rt)?;
    link(&rt)?;
    script(&rt)?;
    owe(&rt)?;
    go_round(&rt)
}
