//! A client's call and the replies to it. The ledger gives the call its xid, and says when there is credit for another.
//! The header that is sent offers memory: write chunks for data, and a reply chunk in case the RPC reply is too long to
//! come inline. The reply's header says how much of each the server filled. It prints what examples/c/client.c prints.

use eoswynnor::{Header, Kind, Ledger, Refusal, Segment, MAX_HEADER};

/// A write chunk of two segments, one of a single segment, and a reply chunk.
fn offer(xid: u32) -> Header {
    let segment = |handle, length, offset| Segment { handle, length, offset };
    Header {
        xid,
        credit: 32,
        kind: Kind::Msg,
        reads: vec![],
        writes: vec![
            vec![segment(7, 4096, 0x10000), segment(7, 4096, 0x20000)],
            vec![segment(8, 512, 0x30000)],
        ],
        reply: Some(vec![segment(9, 1024, 0x40000)]),
    }
}

fn written(header: &Header) -> Result<Vec<u8>, Refusal> {
    let mut frame = vec![0; MAX_HEADER];
    let length = header.write(&mut frame)?;
    frame.truncate(length);
    Ok(frame)
}

/// Stands for the server: a real reply comes from the network. The server names the segments as it got them, each with the
/// bytes that it put there. It is NOMSG, because the RPC reply lies in the reply chunk.
fn serve(call: &[u8], first: u32, second: u32) -> Result<Vec<u8>, Refusal> {
    let mut header = Header::read(call)?;
    header.kind = Kind::Nomsg;
    header.writes[0][0].length = first;
    header.writes[0][1].length = second;
    header.writes[1][0].length = 12;
    header.reply.iter_mut().for_each(|chunk| chunk[0].length = 200);
    written(&header)
}

/// The number of an answer, as the C calls give it.
fn number<T>(answer: &Result<T, Refusal>) -> u32 {
    answer.as_ref().map_or_else(|refusal| refusal.0, |_| 0)
}

/// What the client does with a reply. After a refusal it must not use what lies in the chunks. The call is answered all
/// the same, and the reply's credit word is the new grant: the ledger says whether such a call is in flight.
fn receive(name: &str, ledger: &mut Ledger, sent: &Header, frame: &[u8]) {
    let reply = match Header::read(frame) {
        Ok(reply) => reply,
        Err(refusal) => return println!("{name} {}", refusal.0),
    };
    let landed = sent.returned(&reply);
    print!("{name} {}", number(&landed));
    if let Ok(landed) = landed {
        landed.writes.iter().for_each(|bytes| print!(" write {bytes}"));
        print!(" reply {}", landed.reply);
    }
    println!(" ledger {}", number(&ledger.reply(reply.xid, reply.credit)));
}

fn main() -> Result<(), Refusal> {
    let mut ledger = Ledger::open(0x29);
    let xid = ledger.send()?.xid;
    // Kept until the reply is there: the reply is compared with it.
    let sent = offer(xid);
    let call = written(&sent)?;
    // The RPC call goes right behind the header; here it is left out.
    println!("call {xid} of {} bytes", call.len());
    // One credit until a reply grants more.
    println!("another {}", number(&ledger.send()));

    receive("filled", &mut ledger, &sent, &serve(&call, 4096, 100)?);
    // Bytes in the second segment though the first is not full: no server that fills from the front says so. And the call
    // has its reply: it is not in flight any more.
    receive("gap", &mut ledger, &sent, &serve(&call, 4095, 100)?);

    // How many xids were passed over tells how long the search took: none, since no call is in flight.
    let next = ledger.send()?;
    println!("another 0 call {} passed {}", next.xid, next.passed);
    Ok(())
}
