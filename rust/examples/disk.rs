//! A disk at the end of a link, whose sectors lie in a vector: its signature, who it is, a sector that is written and read again, and
//! one that cannot be read.

use gefsunk::{
    fis_text, Asks, Disk, Error, Failure, Fault, FisRoom, Medium, Profile, Reply, Request,
    FIS_ROOM, SECTOR,
};

/// Sectors in a row, one of which cannot be read.
struct Worn {
    sectors: Vec<u8>,
    lost: u64,
}

impl Medium for Worn {
    fn load(&mut self, request: Request, lba: u64, bytes: &mut [u8]) -> Result<Reply, Failure> {
        let count = (bytes.len() / SECTOR) as u64;
        if (lba..lba + count).contains(&self.lost) {
            return Err(Failure {
                fault: Fault::Unreadable,
                lba: self.lost,
            });
        }
        self.sectors.load(request, lba, bytes)
    }

    fn store(&mut self, request: Request, lba: u64, bytes: &[u8]) -> Result<Reply, Failure> {
        self.sectors.store(request, lba, bytes)
    }

    fn flush(&mut self, request: Request) -> Result<Reply, Failure> {
        self.sectors.flush(request)
    }
}

/// The host, the disk and its medium.
struct Link {
    disk: Disk,
    medium: Worn,
    /// What the host has to write.
    written: [u8; 4 + SECTOR],
}

impl Link {
    /// All that the disk asks for is done, and all that it sends goes up. It is asked first: a command starts as it is asked. The
    /// host sends its data as it is asked to.
    fn settle(&mut self) -> Result<(), Error> {
        let fis: &mut FisRoom = &mut [0; FIS_ROOM];
        let mut room = Vec::new();
        loop {
            if let Some(ask) = self.disk.next_ask()? {
                println!("{:?}", ask.what);
                self.disk.serve(&ask, &mut self.medium, &mut room)?;
                continue;
            }
            match self.disk.next_for_host(fis)? {
                Some([0x46, _, _, _, data @ ..]) => {
                    println!("data of {} bytes: {:02x?} ..", data.len(), &data[..4]);
                }
                Some(fis) => {
                    println!("{}", fis_text(fis)?);
                    if matches!(fis, [0x39, ..] | [0x41, 0x80..=0xFF, ..]) {
                        self.disk.host_sends(&self.written)?;
                    }
                }
                None => return Ok(()),
            }
        }
    }

    /// A Register Host to Device FIS with a command of one sector.
    fn command(&mut self, code: u8, lba: u8) -> Result<(), Error> {
        let mut fis = [0; 20];
        fis[..8].copy_from_slice(&[0x27, 0x80, code, 1, lba, 0, 0, 0x40]);
        self.disk.host_sends(&fis)?;
        self.settle()
    }
}

fn main() -> Result<(), Error> {
    let profile = Profile::new(64, "ONE");
    let mut link = Link {
        disk: Disk::new(&profile)?,
        medium: Worn {
            sectors: vec![0; 64 * SECTOR],
            lost: 9,
        },
        written: [0xA5; 4 + SECTOR],
    };
    link.written[..4].copy_from_slice(&[0x46, 0, 0, 0]);
    link.disk.plug()?;
    link.settle()?;
    for (code, lba) in [(0xEC, 0), (0x61, 8), (0x60, 8), (0x60, 9)] {
        link.command(code, lba)?;
    }
    println!(
        "19 bytes: {}",
        link.disk.host_sends(&[0x27; 19]).unwrap_err()
    );
    let sizes = [
        Profile::new(0, "NO SECTORS"),
        Profile::new(64, "A SERIAL NUMBER OF 27 LETTERS"),
        Profile {
            depth: 33,
            ..Profile::new(64, "A LONG QUEUE")
        },
    ];
    for profile in &sizes {
        let error = Disk::new(profile).err().expect("no disk can be like this");
        println!("{}: {error}", profile.serial);
    }
    Ok(())
}
