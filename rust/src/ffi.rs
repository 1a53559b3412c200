//! All that is unsafe: the declarations of `c/include/gefsunk.h`, one for one, and safe calls over them.
//!
//! A call that takes references alone is safe by itself: a handle is closed or was opened by the library, since nobody else can make
//! one, no copy of it can be made, and a handle of another kind is refused. One that takes a slice is safe by the function over
//! it here, in which a pointer and its length come from one slice.
#![allow(unsafe_code)]

use core::ffi::{c_char, c_int, c_void, CStr};
use core::marker::PhantomData;
use core::ptr;

use crate::Error;

/// A handle: `gef_pm`, `gef_disk` and `gef_machine` are alike.
#[repr(C)]
pub(crate) struct Handle {
    mark: u32,
    at: *mut c_void,
}

/// What a disk says of itself: `gef_disk_profile`.
#[repr(C)]
pub(crate) struct DiskProfile<'text> {
    pub(crate) model: Text<'text>,
    pub(crate) serial: Text<'text>,
    pub(crate) firmware: Text<'text>,
    pub(crate) sectors: u64,
    pub(crate) wwn: u64,
    pub(crate) physical: u32,
    pub(crate) rotation: u32,
    pub(crate) depth: u32,
    pub(crate) trim: u32,
    pub(crate) limit: u32,
}

/// A text of C, which ends with a 0, and stays as long as this.
#[repr(transparent)]
pub(crate) struct Text<'text> {
    start: *const c_char,
    text: PhantomData<&'text CStr>,
}

impl<'text> Text<'text> {
    pub(crate) fn of(text: &'text CStr) -> Text<'text> {
        Text {
            start: text.as_ptr(),
            text: PhantomData,
        }
    }
}

/// What bytes of the guest are wanted for: `gef_wanted`.
#[repr(C)]
#[derive(Debug, Clone, Copy, PartialEq, Eq, Hash)]
pub(crate) struct Wanted {
    kind: u32,
    owner: u32,
    number: u64,
    done: usize,
}

/// Which request of a disk an answer is for: `gef_request`.
#[repr(C)]
#[derive(Debug, Clone, Copy, PartialEq, Eq, Hash)]
pub(crate) struct Request {
    port: u32,
    place: u32,
    disk: u64,
    number: u64,
}

/// The part of an event that reads the guest's memory.
#[repr(C)]
#[derive(Clone, Copy)]
pub(crate) struct Read {
    pub(crate) at: u64,
    pub(crate) len: usize,
    pub(crate) wanted: Wanted,
}

/// The part of an event that writes it.
#[repr(C)]
#[derive(Clone, Copy)]
pub(crate) struct Write {
    pub(crate) at: u64,
    pub(crate) len: usize,
}

/// The part of an event that is for a medium.
#[repr(C)]
#[derive(Clone, Copy)]
pub(crate) struct Medium {
    pub(crate) lba: u64,
    pub(crate) count: u32,
    pub(crate) request: Request,
}

/// What belongs to a kind of event.
#[repr(C)]
union Part {
    read: Read,
    write: Write,
    medium: Medium,
    up: u32,
}

/// What is to be done: `gef_event`.
#[repr(C)]
pub(crate) struct Event {
    pub(crate) kind: u32,
    pub(crate) port: u32,
    part: Part,
}

impl Event {
    /// Nothing. All its bytes are written, whichever part is read.
    const NOTHING: Event = Event {
        kind: 0,
        port: 0,
        part: Part {
            medium: Medium {
                lba: 0,
                count: 0,
                request: Request {
                    port: 0,
                    place: 0,
                    disk: 0,
                    number: 0,
                },
            },
        },
    };

    /// The next event of a handle.
    pub(crate) fn next(
        handle: &mut Handle,
        call: extern "C" fn(&mut Handle, &mut Event) -> c_int,
    ) -> Result<Event, Error> {
        let mut event = Event::NOTHING;
        Error::check(call(handle, &mut event))?;
        Ok(event)
    }

    // SAFETY of the four: each part has numbers alone, any bits are a number, and no call leaves a byte of an event unwritten.
    pub(crate) fn read(&self) -> Read {
        unsafe { self.part.read }
    }

    pub(crate) fn write(&self) -> Write {
        unsafe { self.part.write }
    }

    pub(crate) fn medium(&self) -> Medium {
        unsafe { self.part.medium }
    }

    pub(crate) fn up(&self) -> u32 {
        unsafe { self.part.up }
    }
}

/// Sectors of a discard: `gef_range`.
#[repr(C)]
#[derive(Default)]
pub(crate) struct Range {
    pub(crate) lba: u64,
    pub(crate) count: u64,
}

// The order of the declarations is that of the header.
#[rustfmt::skip]
unsafe extern "C" {
    safe fn gef_version() -> *const c_char;
    safe fn gef_status_text(status: c_int) -> *const c_char;
    fn gef_fis_text(fis: *const u8, len: usize, text: *mut c_char, room: usize) -> c_int;

    pub(crate) safe fn gef_pm_new(pm: &mut Handle, ports: u8) -> c_int;
    pub(crate) safe fn gef_pm_new_with_port_0_open(pm: &mut Handle, ports: u8, is_there: u32) -> c_int;
    safe fn gef_pm_free(pm: &mut Handle) -> c_int;
    pub(crate) safe fn gef_pm_plug(pm: &mut Handle, port: u8) -> c_int;
    pub(crate) safe fn gef_pm_unplug(pm: &mut Handle, port: u8) -> c_int;
    fn gef_pm_from_host(pm: &mut Handle, fis: *const u8, len: usize) -> c_int;
    fn gef_pm_from_device(pm: &mut Handle, port: u8, fis: *const u8, len: usize) -> c_int;
    fn gef_pm_to_host(pm: &mut Handle, fis: *mut u8, room: usize, len: &mut usize, port: &mut u8) -> c_int;
    fn gef_pm_to_device(pm: &mut Handle, port: u8, fis: *mut u8, room: usize, len: &mut usize) -> c_int;
    pub(crate) safe fn gef_pm_read(pm: &mut Handle, port: u8, number: u16, value: &mut u32) -> c_int;
    pub(crate) safe fn gef_pm_dropped(pm: &mut Handle, count: &mut u32) -> c_int;

    pub(crate) safe fn gef_disk_new(disk: &mut Handle, profile: &DiskProfile<'_>) -> c_int;
    safe fn gef_disk_free(disk: &mut Handle) -> c_int;
    pub(crate) safe fn gef_disk_plug(disk: &mut Handle) -> c_int;
    fn gef_disk_from_host(disk: &mut Handle, fis: *const u8, len: usize) -> c_int;
    fn gef_disk_to_host(disk: &mut Handle, fis: *mut u8, room: usize, len: &mut usize) -> c_int;
    pub(crate) safe fn gef_disk_next(disk: &mut Handle, event: &mut Event) -> c_int;
    fn gef_disk_answer_loaded(disk: &mut Handle, request: &Request, bytes: *const u8, len: usize) -> c_int;
    safe fn gef_disk_answer_done(disk: &mut Handle, request: &Request) -> c_int;
    safe fn gef_disk_answer_failed(disk: &mut Handle, request: &Request, error: u32, lba: u64) -> c_int;
    fn gef_disk_stored(disk: &mut Handle, request: &Request, from: usize, bytes: *mut u8, room: usize, len: &mut usize) -> c_int;
    pub(crate) safe fn gef_disk_discarded(disk: &mut Handle, request: &Request, number: usize, range: &mut Range) -> c_int;

    pub(crate) safe fn gef_machine_new(machine: &mut Handle, ports: u8, port_0_open: u32) -> c_int;
    safe fn gef_machine_free(machine: &mut Handle) -> c_int;
    pub(crate) safe fn gef_machine_state_size(machine: &mut Handle, len: &mut usize) -> c_int;
    fn gef_machine_save(machine: &mut Handle, bytes: *mut u8, room: usize, len: &mut usize) -> c_int;
    fn gef_machine_restore(machine: &mut Handle, bytes: *const u8, len: usize) -> c_int;
    pub(crate) safe fn gef_machine_read(machine: &mut Handle, offset: u32, width: u32, value: &mut u64) -> c_int;
    pub(crate) safe fn gef_machine_write(machine: &mut Handle, offset: u32, width: u32, value: u64) -> c_int;
    pub(crate) safe fn gef_machine_put_disk(machine: &mut Handle, port: u8, profile: &DiskProfile<'_>) -> c_int;
    pub(crate) safe fn gef_machine_put_device(machine: &mut Handle, port: u8) -> c_int;
    pub(crate) safe fn gef_machine_plug(machine: &mut Handle, port: u8) -> c_int;
    pub(crate) safe fn gef_machine_power_on(machine: &mut Handle) -> c_int;
    pub(crate) safe fn gef_machine_pull(machine: &mut Handle, port: u8) -> c_int;
    pub(crate) safe fn gef_machine_remove(machine: &mut Handle, port: u8) -> c_int;
    pub(crate) safe fn gef_machine_next(machine: &mut Handle, event: &mut Event) -> c_int;
    fn gef_machine_lent(machine: &mut Handle, bytes: *mut u8, room: usize, len: &mut usize) -> c_int;
    fn gef_machine_supply(machine: &mut Handle, wanted: &Wanted, bytes: *const u8, len: usize) -> c_int;
    pub(crate) safe fn gef_machine_no_memory(machine: &mut Handle, wanted: &Wanted) -> c_int;
    fn gef_machine_answer_loaded(machine: &mut Handle, request: &Request, bytes: *const u8, len: usize) -> c_int;
    safe fn gef_machine_answer_done(machine: &mut Handle, request: &Request) -> c_int;
    safe fn gef_machine_answer_failed(machine: &mut Handle, request: &Request, error: u32, lba: u64) -> c_int;
    fn gef_machine_stored(machine: &mut Handle, request: &Request, from: usize, bytes: *mut u8, room: usize, len: &mut usize) -> c_int;
    pub(crate) safe fn gef_machine_discarded(machine: &mut Handle, request: &Request, number: usize, range: &mut Range) -> c_int;
    fn gef_machine_take_frame(machine: &mut Handle, port: u8, fis: *mut u8, room: usize, len: &mut usize) -> c_int;
    fn gef_machine_offer(machine: &mut Handle, port: u8, fis: *const u8, len: usize) -> c_int;
}

type Free = extern "C" fn(&mut Handle) -> c_int;
type Loaded = unsafe extern "C" fn(&mut Handle, &Request, *const u8, usize) -> c_int;
type Done = extern "C" fn(&mut Handle, &Request) -> c_int;
type Failed = extern "C" fn(&mut Handle, &Request, u32, u64) -> c_int;
type Stored =
    unsafe extern "C" fn(&mut Handle, &Request, usize, *mut u8, usize, &mut usize) -> c_int;

/// What a handle has behind it.
pub(crate) trait Kind {
    const FREE: Free;
}

/// Of those that ask media: how their requests are answered.
pub(crate) trait AskingKind: Kind {
    const LOADED: Loaded;
    const DONE: Done;
    const FAILED: Failed;
    const STORED: Stored;
}

/// A port multiplier.
pub(crate) struct Pm;
/// A disk.
pub(crate) struct Disk;
/// A machine.
pub(crate) struct Machine;

impl Kind for Pm {
    const FREE: Free = gef_pm_free;
}

impl Kind for Disk {
    const FREE: Free = gef_disk_free;
}

impl AskingKind for Disk {
    const LOADED: Loaded = gef_disk_answer_loaded;
    const DONE: Done = gef_disk_answer_done;
    const FAILED: Failed = gef_disk_answer_failed;
    const STORED: Stored = gef_disk_stored;
}

impl Kind for Machine {
    const FREE: Free = gef_machine_free;
}

impl AskingKind for Machine {
    const LOADED: Loaded = gef_machine_answer_loaded;
    const DONE: Done = gef_machine_answer_done;
    const FAILED: Failed = gef_machine_answer_failed;
    const STORED: Stored = gef_machine_stored;
}

/// A handle that is open, and its one copy. It is freed once, as it is dropped.
pub(crate) struct Owned<K: Kind> {
    handle: Handle,
    kind: PhantomData<K>,
}

// SAFETY: the library keeps no state beside a handle, and has no thread of its own. The header allows that a handle is handed to
// another thread. It is not `Sync`, since no two calls may run on it at once.
unsafe impl<K: Kind> Send for Owned<K> {}

impl<K: Kind> Owned<K> {
    /// What a call opens.
    pub(crate) fn open(make: impl FnOnce(&mut Handle) -> c_int) -> Result<Owned<K>, Error> {
        let mut handle = Handle {
            mark: 0,
            at: ptr::null_mut(),
        };
        Error::check(make(&mut handle))?;
        Ok(Owned {
            handle,
            kind: PhantomData,
        })
    }

    /// Makes a call.
    pub(crate) fn call(&mut self, call: impl FnOnce(&mut Handle) -> c_int) -> Result<(), Error> {
        Error::check(call(&mut self.handle))
    }

    /// Makes a call that gives something, or has nothing to give.
    pub(crate) fn given<T: Default>(
        &mut self,
        call: impl FnOnce(&mut Handle, &mut T) -> c_int,
    ) -> Result<Option<T>, Error> {
        let mut value = T::default();
        match self.call(|handle| call(handle, &mut value)) {
            Ok(()) => Ok(Some(value)),
            Err(Error::Nothing) => Ok(None),
            Err(error) => Err(error),
        }
    }

    /// Makes a call that gives something.
    pub(crate) fn got<T: Default>(
        &mut self,
        call: impl FnOnce(&mut Handle, &mut T) -> c_int,
    ) -> Result<T, Error> {
        let mut value = T::default();
        self.call(|handle| call(handle, &mut value))?;
        Ok(value)
    }

    pub(crate) fn next(
        &mut self,
        call: extern "C" fn(&mut Handle, &mut Event) -> c_int,
    ) -> Result<Event, Error> {
        Event::next(&mut self.handle, call)
    }
}

impl<K: AskingKind> Owned<K> {
    pub(crate) fn loaded(&mut self, request: &Request, bytes: &[u8]) -> Result<(), Error> {
        // SAFETY: the length is that of the slice.
        self.call(|handle| unsafe { K::LOADED(handle, request, bytes.as_ptr(), bytes.len()) })
    }

    pub(crate) fn done(&mut self, request: &Request) -> Result<(), Error> {
        self.call(|handle| K::DONE(handle, request))
    }

    pub(crate) fn failed(&mut self, request: &Request, bits: u32, lba: u64) -> Result<(), Error> {
        self.call(|handle| K::FAILED(handle, request, bits, lba))
    }

    pub(crate) fn stored(
        &mut self,
        request: &Request,
        from: usize,
        bytes: &mut [u8],
    ) -> Result<usize, Error> {
        // SAFETY: the length is that of the slice.
        self.got(|handle, len| unsafe {
            K::STORED(handle, request, from, bytes.as_mut_ptr(), bytes.len(), len)
        })
    }
}

impl<K: Kind> Drop for Owned<K> {
    fn drop(&mut self) {
        K::FREE(&mut self.handle);
    }
}

// The calls with slices. SAFETY of each: a slice's pointer and length go together, and what one call may change overlaps nothing else
// of it, since it is borrowed for that.

/// Writes the text of a FIS, with a 0 behind it.
fn text_into(fis: &[u8], text: &mut [c_char]) -> c_int {
    unsafe { gef_fis_text(fis.as_ptr(), fis.len(), text.as_mut_ptr(), text.len()) }
}

pub(crate) fn pm_from_host(pm: &mut Handle, fis: &[u8]) -> c_int {
    unsafe { gef_pm_from_host(pm, fis.as_ptr(), fis.len()) }
}

pub(crate) fn pm_from_device(pm: &mut Handle, port: u8, fis: &[u8]) -> c_int {
    unsafe { gef_pm_from_device(pm, port, fis.as_ptr(), fis.len()) }
}

pub(crate) fn pm_to_host(pm: &mut Handle, fis: &mut [u8], len: &mut usize, port: &mut u8) -> c_int {
    unsafe { gef_pm_to_host(pm, fis.as_mut_ptr(), fis.len(), len, port) }
}

pub(crate) fn pm_to_device(pm: &mut Handle, port: u8, fis: &mut [u8], len: &mut usize) -> c_int {
    unsafe { gef_pm_to_device(pm, port, fis.as_mut_ptr(), fis.len(), len) }
}

pub(crate) fn disk_from_host(disk: &mut Handle, fis: &[u8]) -> c_int {
    unsafe { gef_disk_from_host(disk, fis.as_ptr(), fis.len()) }
}

pub(crate) fn disk_to_host(disk: &mut Handle, fis: &mut [u8], len: &mut usize) -> c_int {
    unsafe { gef_disk_to_host(disk, fis.as_mut_ptr(), fis.len(), len) }
}

pub(crate) fn machine_save(machine: &mut Handle, bytes: &mut [u8], len: &mut usize) -> c_int {
    unsafe { gef_machine_save(machine, bytes.as_mut_ptr(), bytes.len(), len) }
}

pub(crate) fn machine_restore(machine: &mut Handle, bytes: &[u8]) -> c_int {
    unsafe { gef_machine_restore(machine, bytes.as_ptr(), bytes.len()) }
}

pub(crate) fn machine_lent(machine: &mut Handle, bytes: &mut [u8], len: &mut usize) -> c_int {
    unsafe { gef_machine_lent(machine, bytes.as_mut_ptr(), bytes.len(), len) }
}

pub(crate) fn machine_supply(machine: &mut Handle, wanted: &Wanted, bytes: &[u8]) -> c_int {
    unsafe { gef_machine_supply(machine, wanted, bytes.as_ptr(), bytes.len()) }
}

pub(crate) fn machine_take_frame(
    machine: &mut Handle,
    port: u8,
    fis: &mut [u8],
    len: &mut usize,
) -> c_int {
    unsafe { gef_machine_take_frame(machine, port, fis.as_mut_ptr(), fis.len(), len) }
}

pub(crate) fn machine_offer(machine: &mut Handle, port: u8, fis: &[u8]) -> c_int {
    unsafe { gef_machine_offer(machine, port, fis.as_ptr(), fis.len()) }
}

/// A text that the library keeps for the whole run, and that is never null.
fn kept_text(text: *const c_char) -> &'static str {
    // SAFETY: the two callers pass what the header says that of.
    unsafe { CStr::from_ptr(text) }
        .to_str()
        .unwrap_or("a text that is not UTF-8")
}

pub(crate) fn version() -> &'static str {
    kept_text(gef_version())
}

pub(crate) fn status_text(status: c_int) -> &'static str {
    kept_text(gef_status_text(status))
}

/// What a FIS means.
pub(crate) fn fis_text(fis: &[u8]) -> Result<String, Error> {
    /// Room for the longest line, and its 0: `GEF_TEXT_ROOM`.
    const ROOM: usize = 161;
    let mut text: [c_char; ROOM] = [0; ROOM];
    Error::check(text_into(fis, &mut text))?;
    let letters = text.iter().take_while(|letter| **letter != 0);
    Ok(letters.map(|letter| char::from(*letter as u8)).collect())
}
