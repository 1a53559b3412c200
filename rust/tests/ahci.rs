//! The guest's memory of a machine that serves itself: what is there, and what is not.

use gefsunk::{
    Ahci, Error, GuestMemory, Medium, NoMemory, Notice, Profile, Request, Width, SECTOR,
};

/// A disk straight behind a controller whose guest has this memory; the received area is put at an address, and filled.
fn started<G: GuestMemory>(memory: G, area: u64) -> Result<Ahci<G, Vec<u8>>, Error> {
    let mut ahci = Ahci::new(0, false, memory)?;
    ahci.put_disk(0, &Profile::new(64, "ONE"), vec![0; 64 * SECTOR])?;
    ahci.plug(0)?;
    ahci.power_on()?;
    for (offset, value) in [(0x100, 0x1000), (0x108, area), (0x118, 0x10), (0x118, 0x11)] {
        ahci.write(offset, Width::Dword, value)?;
        while ahci.next_notice()?.is_some() {}
    }
    Ok(ahci)
}

#[test]
fn memory_is_written() -> Result<(), Error> {
    let ahci = started(vec![0; 0x10000], 0x2000)?;
    assert_eq!(ahci.memory()[0x2040..0x2044], [0x34, 0, 0x50, 1]);
    Ok(())
}

#[test]
fn a_write_where_no_memory_is_goes_nowhere() -> Result<(), Error> {
    let mut ahci = started(vec![0; 0x10000], 0x8000_0000)?;
    assert!(ahci.memory().iter().all(|byte| *byte == 0));
    assert_eq!(ahci.read(0x124, Width::Dword)?, 0x101); // PxSIG
    Ok(())
}

#[test]
fn a_command_where_no_memory_is_fails() -> Result<(), Error> {
    let mut ahci = started(vec![0; 0x10000], 0x2000)?;
    // Slot 0 has its table at 8 MiB.
    ahci.memory_mut()[0x1000] = 5;
    ahci.memory_mut()[0x100A] = 0x80;
    ahci.write(0x138, Width::Dword, 1)?;
    while ahci.next_notice()?.is_some() {}
    assert_eq!(ahci.read(0x110, Width::Dword)? & 1 << 29, 1 << 29); // PxIS.HBFS
    Ok(())
}

#[test]
fn a_slice_is_memory() {
    let mut memory = [1, 2, 3, 4];
    let mut bytes = [0; 2];
    assert_eq!(memory[..].read(2, &mut bytes), Ok(()));
    assert_eq!(bytes, [3, 4]);
    assert_eq!(memory[..].read(3, &mut bytes), Err(NoMemory));
    assert_eq!(memory[..].read(u64::MAX, &mut bytes), Err(NoMemory));
    assert_eq!(memory[..].write(5, &[]), Err(NoMemory));
    assert_eq!(memory[..].write(0, &[9]), Ok(()));
    assert_eq!(memory[0], 9);
}

#[test]
fn the_line_and_the_medium() -> Result<(), Error> {
    let mut ahci = started(vec![0; 0x10000], 0x2000)?;
    ahci.write(0x114, Width::Dword, 1)?; // PxIE.DHRE
    ahci.write(0x4, Width::Dword, 2)?; // GHC.IE
                                       // Slot 0: FLUSH CACHE EXT.
    ahci.memory_mut()[0x1000] = 5;
    ahci.memory_mut()[0x1009] = 0x40;
    ahci.memory_mut()[0x4000..0x4003].copy_from_slice(&[0x27, 0x80, 0xEA]);
    ahci.write(0x138, Width::Dword, 1)?;
    let mut ups = Vec::new();
    while let Some(notice) = ahci.next_notice()? {
        if let Notice::Line { up } = notice {
            ups.push(up);
        }
    }
    assert_eq!(ups.last(), Some(&true));
    assert_eq!(ahci.read(0x138, Width::Dword)?, 0); // PxCI
    let medium = ahci.remove(0)?;
    assert_eq!(medium.map(|sectors| sectors.len()), Some(64 * SECTOR));
    assert_eq!(ahci.remove(0), Err(Error::NotThere));
    assert!(ahci.medium_mut(0).is_none() && ahci.medium_mut(99).is_none());
    Ok(())
}

#[test]
fn media_of_several_kinds_and_threads() -> Result<(), Error> {
    fn may_go_to_a_thread<T: Send>(_: &T) {}
    fn may_be_shared_by_threads<T: Send + Sync>() {}
    may_be_shared_by_threads::<Request>();
    let mut lent = vec![0; 64 * SECTOR];
    {
        let mut ahci: Ahci<Vec<u8>, Box<dyn Medium + Send + '_>> =
            Ahci::new(2, true, vec![0; 0x1000])?;
        ahci.put_disk(0, &Profile::new(64, "ONE"), Box::new(vec![0; 64 * SECTOR]))?;
        ahci.put_disk(1, &Profile::new(64, "TWO"), Box::new(&mut lent))?;
        let again = ahci.put_disk(1, &Profile::new(64, "TWO"), Box::new(Vec::new()));
        assert_eq!(again, Err(Error::AlreadyThere));
        may_go_to_a_thread(&ahci);
    }
    lent[0] = 1;
    Ok(())
}
