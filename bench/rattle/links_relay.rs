//! Items through a link and through a plain queue, from one thread to another.
#![tactic(auto)]

use crossbeam_queue::ArrayQueue;
use ruled_links::{Link, Rx, Tx};
use std::io;
use std::sync::Wait;
use std::thread;
use std::thread::{Threads, join};
use std::time::Instant;

const ITEMS: u32 = 2_000_000;

// How often each side tries.
const TRIES: u64 = 1_000_000_000;

fn send_all<R: Wait>(rt: &R, mut tx: Tx<'_, u32>) -> u32 {
    let mut sent: u32 = 0;
    for _ in 0..TRIES {
        if sent >= ITEMS {
            break;
        }
        match tx.send(rt, sent) {
            Ok(()) => sent = sent.wrapping_add(1),
            Err(_) => thread::yield_now(),
        }
    }
    sent
}

fn take_all<R: Wait>(rt: &R, mut rx: Rx<'_, u32>) -> u32 {
    let mut taken: u32 = 0;
    for _ in 0..TRIES {
        if taken >= ITEMS {
            break;
        }
        match rx.take(rt) {
            Some(_) => taken = taken.wrapping_add(1),
            None => thread::yield_now(),
        }
    }
    taken
}

fn push_all<R: Wait>(rt: &R, queue: &ArrayQueue<u32>) -> u32 {
    let mut sent: u32 = 0;
    for _ in 0..TRIES {
        if sent >= ITEMS {
            break;
        }
        match queue.push(rt, sent) {
            Ok(()) => sent = sent.wrapping_add(1),
            Err(_) => thread::yield_now(),
        }
    }
    sent
}

fn pop_all<R: Wait>(rt: &R, queue: &ArrayQueue<u32>) -> u32 {
    let mut taken: u32 = 0;
    for _ in 0..TRIES {
        if taken >= ITEMS {
            break;
        }
        match queue.pop(rt) {
            Some(_) => taken = taken.wrapping_add(1),
            None => thread::yield_now(),
        }
    }
    taken
}

// How many items came through the link.
fn relayed<R: Threads + Wait + Sync>(rt: &R, tx: Tx<'_, u32>, rx: Rx<'_, u32>) -> u32 {
    let sending = move || send_all(rt, tx);
    let taking = move || take_all(rt, rx);
    join(rt, sending, taking).1
}

// How many items came through the queue.
fn queued<R: Threads + Wait + Sync>(rt: &R, queue: &ArrayQueue<u32>) -> u32 {
    join(rt, || push_all(rt, queue), || pop_all(rt, queue)).1
}

fn main(rt: HostRuntime) -> io::Result<()> {
    let alloc = rt.alloc();
    for capacity in [1usize, 4, 64] {
        let Ok(mut link) = Link::new(alloc, capacity) else {
            println!(rt; "no memory")?;
            return Ok(());
        };
        let Some((tx, rx)) = link.seats() else {
            return Ok(());
        };
        let start = Instant::now(&rt)?;
        let items = relayed(&rt, tx, rx);
        let micros = start.elapsed(&rt)?.as_micros();
        println!(rt; "link capacity {capacity} items {items} micros {micros}")?;
        let Ok(queue) = ArrayQueue::new(alloc, capacity) else {
            println!(rt; "no memory")?;
            return Ok(());
        };
        let start = Instant::now(&rt)?;
        let items = queued(&rt, &queue);
        let micros = start.elapsed(&rt)?.as_micros();
        println!(rt; "queue capacity {capacity} items {items} micros {micros}")?;
    }
    Ok(())
}
