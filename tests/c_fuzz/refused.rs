//! A machine of the bindings for Rust whose allocations are refused, one in each run: what was refused is asked again, and the guest's
//! memory, the medium and the registers must end as where nothing was refused. `tests/c` links it with malloc and realloc wrapped.

use std::ffi::c_void;
use std::sync::atomic::{AtomicBool, AtomicU32, Ordering::SeqCst};

use gefsunk::{
    Ahci, Answer, Error, Failure, Medium, Profile, Reply, Request, SectorRange, Width, SECTOR,
};

extern "C" {
    fn __real_malloc(bytes: usize) -> *mut c_void;
    fn __real_realloc(block: *mut c_void, bytes: usize) -> *mut c_void;
}

/// How many allocations are granted still, and whether they are counted.
static GRANTED: AtomicU32 = AtomicU32::new(u32::MAX);
static COUNTS: AtomicBool = AtomicBool::new(false);

/// Refuses one allocation: the one at which the count is 0.
fn is_refused() -> bool {
    COUNTS.load(SeqCst) && GRANTED.fetch_sub(1, SeqCst) == 0
}

#[no_mangle]
extern "C" fn __wrap_malloc(bytes: usize) -> *mut c_void {
    if is_refused() {
        return std::ptr::null_mut();
    }
    // SAFETY: as of the caller.
    unsafe { __real_malloc(bytes) }
}

#[no_mangle]
extern "C" fn __wrap_realloc(block: *mut c_void, bytes: usize) -> *mut c_void {
    if is_refused() {
        return std::ptr::null_mut();
    }
    // SAFETY: as of the caller.
    unsafe { __real_realloc(block, bytes) }
}

/// Makes a call again until memory is not refused. Allocations count within the call alone.
fn again<T>(mut call: impl FnMut() -> Result<T, Error>) -> T {
    loop {
        COUNTS.store(true, SeqCst);
        let given = call();
        COUNTS.store(false, SeqCst);
        match given {
            Ok(value) => return value,
            Err(Error::NoMemory) => (),
            Err(error) => panic!("{error}"),
        }
    }
}

/// Sectors in a row, whose loads of sector 9 come later.
struct Sectors {
    bytes: Vec<u8>,
    late: [Option<Request>; 1],
    discarded: [SectorRange; 1],
}

impl Medium for Sectors {
    fn load(&mut self, request: Request, lba: u64, bytes: &mut [u8]) -> Result<Reply, Failure> {
        if lba == 9 {
            self.late[0] = Some(request);
            return Ok(Reply::Later);
        }
        self.bytes.load(request, lba, bytes)
    }

    fn store(&mut self, request: Request, lba: u64, bytes: &[u8]) -> Result<Reply, Failure> {
        self.bytes.store(request, lba, bytes)
    }

    fn flush(&mut self, request: Request) -> Result<Reply, Failure> {
        self.bytes.flush(request)
    }

    fn discard(&mut self, _: Request, ranges: &[SectorRange]) -> Result<Reply, Failure> {
        self.discarded.copy_from_slice(ranges);
        Ok(Reply::Done)
    }
}

type Computer = Ahci<Vec<u8>, Sectors>;

fn settle(ahci: &mut Computer) {
    while again(|| ahci.next_notice()).is_some() {}
}

fn write(ahci: &mut Computer, offset: u32, value: u64) {
    again(|| ahci.write(offset, Width::Dword, value));
    settle(ahci);
}

/// A command of two sectors in slot 0, whose buffer lies at 8000h.
fn command(ahci: &mut Computer, code: u8, features: u8, lba: u8, count: u8, writes: bool) {
    let memory = ahci.memory_mut();
    memory[0x1000..0x1010].fill(0);
    memory[0x1000] = 5 | if writes { 0x40 } else { 0 };
    memory[0x1002] = u8::from(count > 0);
    memory[0x1009] = 0x40;
    memory[0x4000..0x4020].fill(0);
    memory[0x4000..0x4008].copy_from_slice(&[0x27, 0x80, code, features, lba, 0, 0, 0x40]);
    memory[0x400C] = count;
    memory[0x4080..0x4090].fill(0);
    memory[0x4081] = 0x80;
    memory[0x408C..0x408E].copy_from_slice(&(u16::from(count) * 512).wrapping_sub(1).to_le_bytes());
    write(ahci, 0x138, 1);
    if let Some(request) = ahci.medium_mut(0).and_then(|medium| medium.late[0].take()) {
        again(|| ahci.answer(&request, Answer::Loaded(&[0x99; 2 * SECTOR])));
        settle(ahci);
    }
}

/// All that the guest and the medium have in the end.
fn run() -> (Vec<u8>, Vec<u8>, [SectorRange; 1], [u64; 3]) {
    let medium = Sectors {
        bytes: (0..64 * SECTOR).map(|at| (at / SECTOR) as u8).collect(),
        late: [None],
        discarded: [SectorRange { lba: 0, count: 0 }],
    };
    let mut ahci: Computer = Ahci::new(0, false, vec![0; 0x10000]).expect("it is made");
    ahci.put_disk(0, &Profile::new(64, "ONE"), medium)
        .expect("a disk is put there");
    ahci.plug(0).expect("it is plugged in");
    ahci.power_on().expect("power comes");
    for (offset, value) in [
        (0x100, 0x1000),
        (0x108, 0x2000),
        (0x118, 0x10),
        (0x118, 0x11),
    ] {
        write(&mut ahci, offset, value);
    }
    command(&mut ahci, 0x25, 0, 5, 2, false);
    command(&mut ahci, 0x35, 0, 20, 2, true);
    command(&mut ahci, 0xEA, 0, 0, 0, false);
    command(&mut ahci, 0x25, 0, 9, 2, false);
    ahci.memory_mut()[0x8000..0x8200].fill(0);
    ahci.memory_mut()[0x8000..0x8008].copy_from_slice(&[30, 0, 0, 0, 0, 0, 4, 0]);
    command(&mut ahci, 0x06, 1, 0, 1, true);
    let registers = [0x138, 0x110, 0x120].map(|it| again(|| ahci.read(it, Width::Dword)));
    let memory = ahci.memory().clone();
    let medium = again(|| ahci.remove(0)).expect("the medium comes back");
    (memory, medium.bytes, medium.discarded, registers)
}

fn main() {
    let wanted = run();
    let (memory, bytes, discarded, registers) = &wanted;
    assert_eq!(
        bytes[20 * SECTOR..22 * SECTOR],
        bytes[5 * SECTOR..7 * SECTOR]
    );
    assert_eq!(discarded[0], SectorRange { lba: 30, count: 4 });
    assert_eq!(
        (memory[0x8200], registers[0], registers[2] & 0xFF),
        (0x99, 0, 0x50)
    );
    let mut number = 0;
    loop {
        GRANTED.store(number, SeqCst);
        assert!(run() == wanted, "where allocation {number} was refused");
        if GRANTED.load(SeqCst) < u32::MAX / 2 {
            break;
        }
        number += 1;
    }
    println!("{number} allocations");
}
