//! What a medium may answer, and when: a disk by FISes, whose medium says what the test has it say.

use std::sync::mpsc::{channel, Sender};
use std::thread;

use gefsunk::{
    Answer, Asks, Disk, Error, Failure, Fault, Medium, Profile, Reply, Request, SectorRange,
    FIS_ROOM, SECTOR,
};

/// A medium that answers as it is told, and keeps what it was asked.
struct Told {
    reply: Result<Reply, Failure>,
    asked: Vec<String>,
    requests: Vec<Request>,
}

impl Told {
    fn hears(&mut self, what: String, request: Request) -> Result<Reply, Failure> {
        self.asked.push(what);
        self.requests.push(request);
        self.reply
    }
}

impl Medium for Told {
    fn load(&mut self, request: Request, lba: u64, bytes: &mut [u8]) -> Result<Reply, Failure> {
        assert!(bytes.iter().all(|byte| *byte == 0));
        bytes.fill(7);
        self.hears(format!("load {lba} {}", bytes.len()), request)
    }

    fn store(&mut self, request: Request, lba: u64, bytes: &[u8]) -> Result<Reply, Failure> {
        let sum: u32 = bytes.iter().map(|byte| u32::from(*byte)).sum();
        self.hears(format!("store {lba} {} {sum}", bytes.len()), request)
    }

    fn flush(&mut self, request: Request) -> Result<Reply, Failure> {
        self.hears("flush".to_owned(), request)
    }

    fn discard(&mut self, request: Request, ranges: &[SectorRange]) -> Result<Reply, Failure> {
        self.hears(format!("discard {ranges:?}"), request)
    }
}

/// A disk with its medium, and the host at the other end.
struct Link {
    disk: Disk,
    medium: Told,
    /// What the host sends when it is asked for data.
    data: [u8; SECTOR],
}

impl Link {
    fn new(reply: Result<Reply, Failure>) -> Link {
        let mut link = Link {
            disk: Disk::new(&Profile::new(64, "ONE")).expect("a disk is made"),
            medium: Told {
                reply,
                asked: Vec::new(),
                requests: Vec::new(),
            },
            data: [1; SECTOR],
        };
        link.disk.plug().expect("it is plugged in");
        assert_eq!(link.settle(), Ok(vec![0x34])); // its signature
        link
    }

    /// All that can be done; gives the types of the FISes that went up, and behind one that ends a command its Status and Error.
    fn settle(&mut self) -> Result<Vec<u8>, Error> {
        let (mut room, mut fis, mut sent) = (Vec::new(), [0; FIS_ROOM], Vec::new());
        loop {
            if let Some(ask) = self.disk.next_ask()? {
                self.disk.serve(&ask, &mut self.medium, &mut room)?;
                continue;
            }
            match self.disk.next_for_host(&mut fis)? {
                Some([0x39, ..]) => {
                    let mut data = [0; 4 + SECTOR];
                    data[0] = 0x46;
                    data[4..].copy_from_slice(&self.data);
                    self.disk.host_sends(&data)?;
                }
                Some([0x34, _, status, error, ..]) if !self.medium.asked.is_empty() => {
                    sent.extend([0x34, *status, *error]);
                }
                Some(fis) => sent.push(fis[0]),
                None => return Ok(sent),
            }
        }
    }

    /// A command of a sector.
    fn command(&mut self, code: u8, features: u8, lba: u8) -> Result<Vec<u8>, Error> {
        let mut fis = [0; 20];
        fis[..8].copy_from_slice(&[0x27, 0x80, code, features, lba, 0, 0, 0x40]);
        fis[12] = 1;
        self.disk.host_sends(&fis)?;
        self.settle()
    }
}

const READ: u8 = 0x25;
const WRITE: u8 = 0x35;
const FLUSH: u8 = 0xEA;
const TRIM: u8 = 0x06;

#[test]
fn a_medium_that_answers_at_once() {
    let mut link = Link::new(Ok(Reply::Done));
    assert_eq!(link.command(READ, 0, 3), Ok(vec![0x46, 0x34, 0x50, 0]));
    assert_eq!(link.command(WRITE, 0, 4), Ok(vec![0x34, 0x50, 0]));
    assert_eq!(link.command(FLUSH, 0, 0), Ok(vec![0x34, 0x50, 0]));
    link.data = [0; SECTOR];
    link.data[0] = 8; // 5 sectors from 8 on
    link.data[6] = 5;
    assert_eq!(link.command(TRIM, 1, 0), Ok(vec![0x34, 0x50, 0]));
    let asked = [
        "load 3 512",
        "store 4 512 512",
        "flush",
        "discard [SectorRange { lba: 8, count: 5 }]",
    ];
    assert_eq!(link.medium.asked, asked);
}

#[test]
fn an_answer_that_comes_later() {
    let mut link = Link::new(Ok(Reply::Later));
    assert_eq!(link.command(READ, 0, 3), Ok(vec![]));
    let request = link.medium.requests[0];
    let short = link.disk.answer(&request, Answer::Loaded(&[7; 511]));
    assert_eq!(short, Err(Error::OtherLength));
    assert_eq!(
        link.disk.answer(&request, Answer::Done),
        Err(Error::OtherKind)
    );
    let loaded = [7; SECTOR];
    assert_eq!(link.disk.answer(&request, Answer::Loaded(&loaded)), Ok(()));
    assert_eq!(link.settle(), Ok(vec![0x46, 0x34, 0x50, 0]));
    let again = link.disk.answer(&request, Answer::Loaded(&loaded));
    assert_eq!(again, Err(Error::NotOut));
}

#[test]
fn an_answer_behind_a_plug() {
    let mut link = Link::new(Ok(Reply::Later));
    assert_eq!(link.command(FLUSH, 0, 0), Ok(vec![]));
    let request = link.medium.requests[0];
    assert_eq!(link.disk.plug(), Ok(()));
    assert_eq!(link.disk.answer(&request, Answer::Done), Err(Error::NotOut));
}

#[test]
fn failures() {
    let fault = |fault| Err(Failure { fault, lba: 3 });
    for (reply, code, ends) in [
        (fault(Fault::Unreadable), READ, [0x34, 0x51, 0x40]),
        (fault(Fault::NoSector), READ, [0x34, 0x51, 0x10]),
        (fault(Fault::Aborted), WRITE, [0x34, 0x51, 0x04]),
        (fault(Fault::Aborted), FLUSH, [0x34, 0x51, 0x04]),
    ] {
        assert_eq!(Link::new(reply).command(code, 0, 3), Ok(ends.to_vec()));
    }
}

#[test]
fn a_failure_that_does_not_fit() {
    let cannot_be_read = Failure {
        fault: Fault::Unreadable,
        lba: 3,
    };
    let mut link = Link::new(Err(cannot_be_read));
    assert_eq!(link.command(WRITE, 0, 3), Err(Error::OtherKind));
    let request = link.medium.requests[0];
    let elsewhere = Failure {
        fault: Fault::Aborted,
        lba: 9,
    };
    let answer = link.disk.answer(&request, Answer::Failed(elsewhere));
    assert_eq!(answer, Err(Error::OtherSector));
    let fits = Failure {
        fault: Fault::Aborted,
        lba: 3,
    };
    assert_eq!(link.disk.answer(&request, Answer::Failed(fits)), Ok(()));
    assert_eq!(link.settle(), Ok(vec![0x34, 0x51, 0x04]));
}

/// A medium whose loads are done by another thread.
struct Elsewhere(Sender<(Request, u64, usize)>);

impl Medium for Elsewhere {
    fn load(&mut self, request: Request, lba: u64, bytes: &mut [u8]) -> Result<Reply, Failure> {
        let sent = self.0.send((request, lba, bytes.len()));
        sent.map(|()| Reply::Later).map_err(|_| Failure {
            fault: Fault::Aborted,
            lba,
        })
    }

    fn store(&mut self, _: Request, lba: u64, _: &[u8]) -> Result<Reply, Failure> {
        let fault = Fault::Aborted;
        Err(Failure { fault, lba })
    }

    fn flush(&mut self, _: Request) -> Result<Reply, Failure> {
        Ok(Reply::Done)
    }
}

#[test]
fn a_medium_in_another_thread() -> Result<(), Error> {
    let (ask, asked) = channel();
    let (answer, answered) = channel();
    let worker = thread::spawn(move || {
        for (request, lba, len) in asked {
            let bytes = vec![lba as u8; len];
            answer.send((request, bytes)).expect("the host waits");
        }
    });
    let mut disk = Disk::new(&Profile::new(64, "ONE"))?;
    disk.plug()?;
    let (mut medium, mut room, mut fis) = (Elsewhere(ask), Vec::new(), [0; FIS_ROOM]);
    assert!(disk.next_for_host(&mut fis)?.is_some());
    // Two queued reads, in tags 0 and 1.
    for tag in [0, 1] {
        let mut read = [0; 20];
        read[..8].copy_from_slice(&[0x27, 0x80, 0x60, 1, 5 + tag, 0, 0, 0x40]);
        read[12] = tag << 3;
        disk.host_sends(&read)?;
        while disk.next_for_host(&mut fis)?.is_some() {}
    }
    let mut loaded = Vec::new();
    while loaded.len() < 2 {
        while let Some(ask) = disk.next_ask()? {
            disk.serve(&ask, &mut medium, &mut room)?;
        }
        if let Some(fis) = disk.next_for_host(&mut fis)? {
            loaded.extend(fis.starts_with(&[0x46]).then(|| fis[4]));
            continue;
        }
        let (request, bytes) = answered.recv().expect("the worker answers");
        disk.answer(&request, Answer::Loaded(&bytes))?;
    }
    loaded.sort_unstable();
    assert_eq!(loaded, [5, 6]);
    drop(medium);
    worker.join().expect("the worker ends");
    Ok(())
}
