//! A program of a user of the installed library. Each consumer of this folder prints the same.

use eoswynnor::{Assembly, Header, Kind, ReadSegment, Refusal, Segment, MAX_HEADER};

fn main() -> Result<(), Refusal> {
    println!("version {}", eoswynnor::VERSION);
    // Worked example C6.
    let header = Header {
        xid: 42,
        credit: 32,
        kind: Kind::Msg,
        reads: vec![ReadSegment { position: 8, target: Segment { handle: 0, length: 5, offset: 0 } }],
        writes: vec![],
        reply: None,
    };
    let mut frame = vec![0; MAX_HEADER];
    let length = header.write(&mut frame)?;
    frame.truncate(length);
    frame.extend(1..=12);
    let mut out = [0; 64];
    let mut assembly = Assembly::start(&frame, &mut out)?;
    assembly.take(&[0xa1, 0xa2, 0xa3, 0xa4, 0xa5])?;
    let hex = assembly.message()?.iter().map(|byte| format!("{byte:02x}")).collect::<String>();
    println!("message {hex}");
    // Every number, some that are none, and the largest.
    (0..40).chain([u32::MAX]).for_each(|number| println!("{number} {}", Refusal(number)));
    Ok(())
}
