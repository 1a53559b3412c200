//! The steps of a small world, each given again where memory is refused. The same steps are given to a second world as a
//! run, which goes on from the step where memory is refused, and to a third one as a run into a vector, which has the
//! answers before that step. What they answer and what they leave is told in full. So whichever allocation is refused, the
//! program tells the same, but for one line `refused NAME`, which names the call that answered its error.
#![tactic(auto)]

use disk_model::{Disk, DiskPlan, Unit};
use fis_view::Bytes;
use hba_driver::{Request, Work};
use host_memory::Prd;
use pm_world::{Answer, Config, Counts, Step, StepError, World};
use std::alloc::{AllocError, Global};
use std::fmt::{self, Write};
use std::io;

/// A text or bytes as a number (FNV-1a), which takes no memory.
#[derive(Drop)]
struct Digest(u64);

impl Digest {
    fn new() -> Digest {
        Digest(0xCBF2_9CE4_8422_2325)
    }

    fn add(&mut self, bytes: &[u8]) {
        for byte in bytes.iter() {
            self.0 = (self.0 ^ u64::from(*byte)).wrapping_mul(0x100_0000_01B3);
        }
    }
}

impl fmt::Write for Digest {
    fn write_str(&mut self, text: &str) -> fmt::Result {
        self.add(text.as_bytes());
        Ok(())
    }
}

/// The digest of an answer's text.
fn digest_of(answer: &Answer) -> u64 {
    let mut digest = Digest::new();
    let _ = write!(digest, "{answer:?}");
    digest.0
}

/// One of the fifteen steps of a round, in which each actor of a world of two ports has one.
fn nth(n: u8) -> Step {
    let port = n % 2;
    match n {
        0 => Step::Tick,
        1 => Step::HostPush,
        2 => Step::PmFromHost,
        3 | 4 => Step::PmPresence(port),
        5 | 6 => Step::PmDown(port),
        7 | 8 => Step::DiskTake(port),
        9 | 10 => Step::DiskSend(port),
        11 | 12 => Step::PmFromDevice(port),
        13 => Step::PmUp,
        _ => Step::HostTake,
    }
}

/// So many rounds.
fn rounds(steps: &mut Vec<Step>, count: u8) -> Result<(), AllocError> {
    for _ in 0..count {
        for n in 0..15 {
            steps.push(nth(n))?;
        }
    }
    Ok(())
}

/// A request of one sector, or a Flush.
fn submit(alloc: Global, dev: u8, work: Work, lba: u64, address: u32) -> Result<Step, AllocError> {
    let mut prds = Vec::new(alloc);
    let sectors = u16::from(work != Work::Flush);
    if work != Work::Flush {
        prds.push(Prd {
            address,
            bytes: 512,
        })?;
    }
    let request = Request {
        work,
        lba,
        sectors,
        prds,
    };
    Ok(Step::Submit(dev, request))
}

/// Two requests are given, served and polled.
fn serve(steps: &mut Vec<Step>, first: Step, second: Step) -> Result<(), AllocError> {
    steps.push(first)?;
    steps.push(second)?;
    rounds(steps, 12)?;
    steps.push(Step::Poll)?;
    Ok(steps.push(Step::Poll)?)
}

/// A disk comes, a sector of it is read and one is written.
fn one_disk(alloc: Global, steps: &mut Vec<Step>) -> Result<(), AllocError> {
    steps.push(Step::Came(0))?;
    rounds(steps, 50)?;
    let sevens = Bytes::from_slice(alloc, &[7; 512])?;
    steps.push(Step::Put(0x10_4000, sevens))?;
    let read = submit(alloc, 0, Work::Read, 5, 0x10_3000)?;
    let write = submit(alloc, 0, Work::Write, 6, 0x10_4000)?;
    serve(steps, read, write)
}

/// Another comes, of which the multiplier notifies the host. A sector of it is read while the first is flushed, and it
/// sends a FIS that it was not asked for.
fn two_disks(alloc: Global, steps: &mut Vec<Step>) -> Result<(), AllocError> {
    steps.push(Step::Came(1))?;
    rounds(steps, 40)?;
    let read = submit(alloc, 1, Work::Read, 2, 0x10_5000)?;
    let flush = submit(alloc, 0, Work::Flush, 0, 0)?;
    serve(steps, read, flush)?;
    let bits = Bytes::from_slice(alloc, &[0xA1, 0xC0, 0x50, 0, 0, 0, 0, 0])?;
    steps.push(Step::Inject(1, bits))?;
    rounds(steps, 3)
}

fn whole(alloc: Global) -> Result<Vec<Step>, AllocError> {
    let mut steps = Vec::with_capacity(alloc, 2000)?;
    one_disk(alloc, &mut steps)?;
    two_disks(alloc, &mut steps)?;
    Ok(steps)
}

/// Two disks of 16 sectors behind a multiplier, and links of two frames.
fn opening(alloc: Global) -> Result<World, AllocError> {
    let mut units = Vec::new(alloc);
    for _ in 0..2 {
        match Disk::new(alloc, 16, DiskPlan::plain()) {
            Ok(disk) => units.push(Unit::Disk(disk))?,
            Err(_) => return Err(AllocError),
        }
    }
    let config = Config {
        ports: 2,
        capacity: 2,
        memory: 0x20_0000,
    };
    match World::new(alloc, config, units) {
        Ok(world) => Ok(world),
        Err(_) => Err(AllocError),
    }
}

/// A call answered that memory is refused.
fn refused(rt: &HostRuntime, name: &str) -> io::Result<()> {
    println!(rt; "refused {name}")
}

/// Gives a step, and once more where memory is refused.
fn give(rt: &HostRuntime, world: &mut World, step: &Step) -> io::Result<Result<Answer, StepError>> {
    match world.step(rt.alloc(), step) {
        Err(StepError::OutOfMemory) => {
            refused(rt, "World::step")?;
            Ok(world.step(rt.alloc(), step))
        }
        given => Ok(given),
    }
}

/// Counts an answer, once more where memory is refused.
fn note(rt: &HostRuntime, counts: &mut Counts, answer: &Answer) -> io::Result<()> {
    if counts.note(answer).is_err() {
        refused(rt, "Counts::note")?;
        counts.note(answer)?;
    }
    Ok(())
}

/// Tells what a step answers, counts it, and gives its digest.
fn tell_step(
    rt: &HostRuntime,
    world: &mut World,
    step: &Step,
    counts: &mut Counts,
) -> io::Result<u64> {
    match give(rt, world, step)? {
        Ok(answer) => {
            note(rt, counts, &answer)?;
            println!(rt; "{answer:?}")?;
            Ok(digest_of(&answer))
        }
        Err(e) => {
            println!(rt; "{e:?}")?;
            Ok(0)
        }
    }
}

/// Tells what each step answers, one after another, then the counts, and gathers the digests.
fn tell_steps(
    rt: &HostRuntime,
    world: &mut World,
    steps: &[Step],
    digests: &mut Vec<u64>,
) -> io::Result<()> {
    let mut counts = Counts::new(rt.alloc());
    for step in steps.iter() {
        let digest = tell_step(rt, world, step, &mut counts)?;
        digests.push(digest)?;
    }
    for row in counts.rows().iter() {
        println!(rt; "{row:?}")?;
    }
    Ok(())
}

/// Whether the answers have these digests.
fn have(answers: &[Answer], digests: &[u64]) -> bool {
    let mut same = answers.len() == digests.len();
    for (answer, digest) in answers.iter().zip(digests.iter()) {
        same &= digest_of(answer) == *digest;
    }
    same
}

/// A run of the steps.
fn run(
    alloc: Global,
    world: &mut World,
    steps: &[Step],
) -> Result<Vec<Answer>, (usize, StepError)> {
    world.run(alloc, steps)
}

/// Whether a run of the steps from number i on answers what the steps did.
fn runs_on(
    alloc: Global,
    world: &mut World,
    (steps, digests, i): (&[Step], &[u64], usize),
) -> bool {
    let (Some(steps), Some(digests)) = (steps.get(i..), digests.get(i..)) else {
        return false;
    };
    match run(alloc, world, steps) {
        Ok(answers) => have(&answers, digests),
        Err(_) => false,
    }
}

/// Whether a run of the steps answers what they did one after another, and where memory is refused, from the step on that
/// it stops at.
fn runs(rt: &HostRuntime, world: &mut World, steps: &[Step], digests: &[u64]) -> io::Result<bool> {
    match run(rt.alloc(), world, steps) {
        Ok(answers) => Ok(have(&answers, digests)),
        Err((i, StepError::OutOfMemory)) => {
            refused(rt, "World::run")?;
            Ok(runs_on(rt.alloc(), world, (steps, digests, i)))
        }
        Err(_) => Ok(false),
    }
}

/// A run of the steps, whose answers go behind these.
fn run_into(
    alloc: Global,
    world: &mut World,
    steps: &[Step],
    answers: &mut Vec<Answer>,
) -> Result<(), (usize, StepError)> {
    world.run_into(alloc, steps, answers)
}

/// The steps from number i on, whose answers go behind those of the steps before.
fn goes_on(
    alloc: Global,
    world: &mut World,
    (steps, i): (&[Step], usize),
    answers: &mut Vec<Answer>,
) -> bool {
    match steps.get(i..) {
        Some(rest) => answers.len() == i && run_into(alloc, world, rest, answers).is_ok(),
        None => false,
    }
}

/// Whether a run of the steps answers what they did one after another, where memory is refused those before the refused
/// step by the first call, and the rest by a second one.
fn runs_into(
    rt: &HostRuntime,
    world: &mut World,
    steps: &[Step],
    digests: &[u64],
) -> io::Result<bool> {
    let alloc = rt.alloc();
    let mut answers = Vec::new(alloc);
    match run_into(alloc, world, steps, &mut answers) {
        Ok(()) => Ok(have(&answers, digests)),
        Err((i, StepError::OutOfMemory)) => {
            refused(rt, "World::run_into")?;
            let ended = goes_on(alloc, world, (steps, i), &mut answers);
            Ok(ended && have(&answers, digests))
        }
        Err(_) => Ok(false),
    }
}

/// Adds the sectors of a disk.
fn add_sectors(shown: &mut Digest, world: &World, n: u8) {
    if let Some(Unit::Disk(disk)) = world.unit(n) {
        for lba in 0..16 {
            shown.add(disk.sector(lba).unwrap_or(&[]));
        }
    }
}

/// Adds the registers of the host port and of the multiplier.
fn add_registers(shown: &mut Digest, world: &World) {
    for offset in 0..18_u32 {
        let value = world.host().read(4 * offset).unwrap_or(1);
        shown.add(&value.to_le_bytes());
    }
    for port in 0..16 {
        for register in 0..128 {
            let value = world.multiplier().registers().read(port, register);
            shown.add(&value.unwrap_or(1).to_le_bytes());
        }
    }
}

/// Tells what the world shows: the client's bytes, the sectors of the disks, the registers of the host port and of the
/// multiplier.
fn tell_world(rt: &HostRuntime, world: &World) -> io::Result<()> {
    let mut shown = Digest::new();
    shown.add(world.memory().client());
    add_sectors(&mut shown, world, 0);
    add_sectors(&mut shown, world, 1);
    add_registers(&mut shown, world);
    let number = shown.0;
    println!(rt; "the world shows {number:016x}")
}

/// A world, made once more where memory is refused to it or to its disks.
fn made(rt: &HostRuntime) -> io::Result<World> {
    match opening(rt.alloc()) {
        Ok(world) => Ok(world),
        Err(_) => {
            refused(rt, "World::new")?;
            Ok(opening(rt.alloc())?)
        }
    }
}

/// Room for so many digests.
fn room(alloc: Global, count: usize) -> Result<Vec<u64>, AllocError> {
    match Vec::with_capacity(alloc, count) {
        Ok(digests) => Ok(digests),
        Err(_) => Vec::with_capacity(alloc, count),
    }
}

/// What the steps answer one after another, and what they leave.
fn tell_one_by_one(rt: &HostRuntime, steps: &[Step], digests: &mut Vec<u64>) -> io::Result<()> {
    let mut world = made(rt)?;
    tell_steps(rt, &mut world, steps, digests)?;
    tell_world(rt, &world)
}

/// Whether a run answers the same, and what it leaves.
fn tell_run(rt: &HostRuntime, steps: &[Step], digests: &[u64]) -> io::Result<()> {
    let mut world = made(rt)?;
    let same = runs(rt, &mut world, steps, digests)?;
    println!(rt; "a run answers the same: {same}")?;
    tell_world(rt, &world)
}

/// Whether a run into a vector answers the same, and what it leaves.
fn tell_run_into(rt: &HostRuntime, steps: &[Step], digests: &[u64]) -> io::Result<()> {
    let mut world = made(rt)?;
    let same = runs_into(rt, &mut world, steps, digests)?;
    println!(rt; "a run into a vector answers the same: {same}")?;
    tell_world(rt, &world)
}

/// The steps one by one, and both runs of them.
fn tell(rt: &HostRuntime, steps: &[Step]) -> io::Result<()> {
    let mut digests = room(rt.alloc(), steps.len())?;
    tell_one_by_one(rt, steps, &mut digests)?;
    tell_run(rt, steps, &digests)?;
    tell_run_into(rt, steps, &digests)
}

fn main(rt: HostRuntime) -> io::Result<()> {
    let alloc = rt.alloc();
    let steps = match whole(alloc) {
        Ok(steps) => steps,
        Err(_) => whole(alloc)?,
    };
    tell(&rt, &steps)
}
