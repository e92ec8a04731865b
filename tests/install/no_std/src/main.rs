//! The crate in a program without std and without a heap: it would not link if the crate needed either. Its status is 0 if
//! each call answered as it must.
#![no_std]
#![no_main]

use eoswynnor::{error_reply, ffi, grant, payload, Assembly, Ledger, Refusal, Setup, MAX_HEADER, MAX_REPLY};

#[link(name = "c")]
extern "C" {
    fn abort() -> !;
}

#[panic_handler]
fn panic(_: &core::panic::PanicInfo) -> ! {
    unsafe { abort() }
}

/// Named by the compiled core, which was made for programs that unwind.
#[no_mangle]
extern "C" fn rust_eh_personality() {}

fn calls() -> Result<(), Refusal> {
    let header = ffi::Header { xid: 42, credit: 32, ..Default::default() };
    let mut room = [0; MAX_HEADER];
    let length = header.write(&mut room)?;
    let frame = &room[..length];
    assert_eq!(ffi::Header::read(frame)?, header);
    assert!(payload(frame).is_empty());
    assert!(Assembly::start(frame, &mut [])?.message()?.is_empty());
    assert_eq!(error_reply(frame, Refusal::CHUNK_OVERLAPS, grant(100, 32)?, &mut [0; MAX_REPLY])?.len(), 20);
    assert_eq!(Setup::read(&[]).0.send, eoswynnor::MIN_SIZE);
    assert_eq!(header.returned(&header)?, ffi::Landed::default());
    let mut ledger = Ledger::open(41);
    assert_eq!(ledger.send()?.xid, 42);
    assert_eq!(ledger.send(), Err(Refusal::CREDIT_SPENT));
    ledger.reply(42, 2)
}

#[no_mangle]
extern "C" fn main() -> i32 {
    calls().is_err().into()
}
