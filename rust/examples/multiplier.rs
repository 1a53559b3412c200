//! A device of one's own behind the multiplier: the program plays the host, and what the device sends.

use gefsunk::{fis_text, Error, FisRoom, Multiplier, FIS_ROOM};

/// Prints all that may go up to the host now.
fn serve_host(pm: &mut Multiplier, room: &mut FisRoom) -> Result<(), Error> {
    while let Some((port, fis)) = pm.next_for_host(room)? {
        println!("up from {port}: {}", fis_text(fis)?);
    }
    Ok(())
}

/// WRITE PORT MULTIPLIER: the host writes a register of port 0 by the control port.
fn write_register(number: u8, value: u32) -> [u8; 20] {
    let mut fis = [0; 20];
    fis[..4].copy_from_slice(&[0x27, 0x8F, 0xE8, number]);
    let [low, rest @ ..] = value.to_le_bytes();
    fis[4..7].copy_from_slice(&rest);
    fis[12] = low;
    fis
}

fn main() -> Result<(), Error> {
    let room = &mut [0; FIS_ROOM];
    let mut pm = Multiplier::new(1)?;
    pm.plug(0)?;

    // SControl 0 opens the port; a one clears X in SError, and the port forwards.
    for (number, value) in [(2, 0), (1, 0x0400_0000)] {
        pm.host_sends(&write_register(number, value))?;
        serve_host(&mut pm, room)?;
    }

    let mut signature = [0; 20];
    signature[..5].copy_from_slice(&[0x34, 0x00, 0x50, 0x01, 0x01]);
    signature[12] = 1;
    pm.device_sends(0, &signature)?;
    serve_host(&mut pm, room)?;

    let mut read = [0; 20];
    read[..8].copy_from_slice(&[0x27, 0x80, 0x60, 0x01, 0x05, 0, 0, 0x40]);
    pm.host_sends(&read)?;
    if let Some(fis) = pm.next_for_device(0, room)? {
        println!("down to 0: {}", fis_text(fis)?);
    }

    println!("port 1: {}", pm.plug(1).unwrap_err());
    pm.unplug(0)?;
    println!(
        "after it went: {}",
        pm.device_sends(0, &signature).unwrap_err()
    );

    // A multiplier may go to another thread, which frees it.
    let dropped = std::thread::spawn(move || pm.dropped())
        .join()
        .expect("the thread does not panic")?;
    println!("dropped: {dropped}");
    Ok(())
}
