//! Prints the IDENTIFY DEVICE data of a world's disk with the stock profile: 256 words of four hexadecimal digits, eight a line.
#![tactic(auto)]

use disk_model::{DiskPlan, Page, Profile};
use std::io;
use std::io::Write;

fn main(rt: HostRuntime) -> io::Result<()> {
    let plan = DiskPlan {
        profile: Profile::Stock(0x12AB_34CD),
        ..DiskPlan::plain()
    };
    let page = Page::Identity.bytes(rt.alloc(), 65_536, &plan)?;
    for line in page.as_slice().chunks_exact(16) {
        for word in line.chunks_exact(2) {
            print!(rt; "{:02x}{:02x} ", word[1], word[0])?;
        }
        println!(rt; "")?;
    }
    Ok(())
}
