//! The whole way of a call through the library, as a server goes it: setup data at connect time, then for each frame the
//! header, the pulled bytes in pieces, the message, or the error reply. The frames are worked examples C3 and C6 to C9, and
//! two calls whose read list is not sorted on the wire. It prints what examples/c/receive.c prints.

use eoswynnor::{error_reply, grant, payload, Assembly, Header, Kind, ReadSegment, Refusal, Segment, Setup};
use eoswynnor::{MAX_HEADER, MAX_MESSAGE, MAX_REPLY};

const CREDIT_LIMIT: u32 = 32;
const PIECE: usize = 6;

/// The client's memory by handle, as its segments name it.
const CLIENT_MEMORY: [&[u8]; 3] =
    [&[1, 2, 3, 4, 5, 6, 7, 8, 9, 10, 11, 12], &[0xa1, 0xa2, 0xa3, 0xa4, 0xa5], &[0xb1, 0xb2, 0xb3, 0xb4]];

fn hex(bytes: &[u8]) -> String {
    bytes.iter().map(|byte| format!("{byte:02x}")).collect()
}

/// Stands for an RDMA Read of a segment that the client registered.
fn rdma_read(from: Segment) -> &'static [u8] {
    &CLIENT_MEMORY[from.handle as usize][from.offset as usize..][..from.length as usize]
}

/// Reassembles a call in a buffer. Prints of each piece its length, where it was pulled from and how many goes it took.
fn receive<'a>(name: &str, frame: &[u8], out: &'a mut [u8]) -> Result<Assembly<'a>, Refusal> {
    let mut assembly = Assembly::start(frame, out)?;
    // In the order of the assembly's list, which is sorted; the list in the header may not be.
    for read in assembly.reads().to_vec() {
        for piece in rdma_read(read.target).chunks(PIECE) {
            let goes = assembly.take(piece)?;
            println!("{name} piece {} of handle {} goes {goes}", piece.len(), read.target.handle);
        }
    }
    Ok(assembly)
}

/// Serves one frame: hands the message to the RPC layer, or sends the error reply. Here both are printed.
fn serve(name: &str, frame: &[u8]) -> Result<(), Refusal> {
    let mut out = vec![0; MAX_MESSAGE];
    match receive(name, frame, &mut out) {
        Ok(assembly) => {
            let message = assembly.message()?;
            println!("{name} 0 message {} {}", message.len(), hex(message));
        }
        Err(refusal) => {
            let mut room = [0; MAX_REPLY];
            let reply = error_reply(frame, refusal, CREDIT_LIMIT, &mut room)?;
            println!("{name} {} reply {} {}", refusal.0, reply.len(), hex(reply));
        }
    }
    Ok(())
}

fn print_header(name: &str, frame: &[u8]) -> Result<(), Refusal> {
    let header = Header::read(frame)?;
    let kind = match header.kind {
        Kind::Msg => 0,
        Kind::Nomsg => 1,
        Kind::ErrorVersion { .. } => 2,
        Kind::ErrorChunk => 3,
    };
    print!("{name} header 0 kind {kind} xid {:x} credit {}", header.xid, header.credit);
    for read in &header.reads {
        print!(" read {} of handle {} at {}", read.target.length, read.target.handle, read.position);
    }
    let inline = payload(frame);
    println!(" payload {} {}", inline.len(), hex(inline));
    Ok(())
}

/// At connect time: the client's setup data as it came, and ours.
fn connect_with(private_data: &[u8]) -> Result<(), Refusal> {
    let ours = Setup { remote_invalidation: true, send: 4096, receive: 2048 };
    let (theirs, present) = Setup::read(private_data);
    let agreed = Setup::agree(theirs, ours)?;
    let flag = u32::from(theirs.remote_invalidation);
    println!("setup {} R {flag} send {} receive {}", u32::from(present), theirs.send, theirs.receive);
    let flag = u32::from(agreed.remote_invalidation);
    println!("agreed 0 to server {} to client {} R {flag}", agreed.client_to_server, agreed.server_to_client);
    Ok(())
}

fn at(position: u32, handle: u32, length: u32, offset: u64) -> ReadSegment {
    ReadSegment { position, target: Segment { handle, length, offset } }
}

/// The client's frame: a call with these read segments and these bytes inline.
fn call(kind: Kind, reads: &[ReadSegment], inline: &[u8]) -> Result<Vec<u8>, Refusal> {
    let header = Header { xid: 0x2a, credit: 0x20, kind, reads: reads.to_vec(), writes: vec![], reply: None };
    let mut frame = vec![0; MAX_HEADER];
    let length = header.write(&mut frame)?;
    frame.truncate(length);
    frame.extend(inline);
    Ok(frame)
}

fn main() -> Result<(), Refusal> {
    let c10 = [0xf6, 0xab, 0x0e, 0x18, 1, 1, 3, 7];
    let inline = CLIENT_MEMORY[0];

    connect_with(&c10)?;
    connect_with(&c10[..7])?;

    let c6 = call(Kind::Msg, &[at(8, 1, 5, 0)], inline)?;
    print_header("C6", &c6)?;
    serve("C6", &c6)?;
    for position in [12, 16, 20, 24] {
        let c7 = call(Kind::Msg, &[at(8, 1, 5, 0), at(position, 2, 4, 0)], inline)?;
        serve(&format!("C7 at {position}"), &c7)?;
    }
    serve("C8", &call(Kind::Nomsg, &[at(0, 0, 12, 0), at(8, 1, 5, 0)], &[])?)?;
    serve("C9", &call(Kind::Msg, &[at(8, 1, 2, 0), at(8, 1, 3, 2)], inline)?)?;
    // C9's chunk with another chunk between its segments; C8 with its base last.
    let unsorted = call(Kind::Msg, &[at(8, 1, 2, 0), at(16, 2, 4, 0), at(8, 1, 3, 2)], inline)?;
    print_header("unsorted", &unsorted)?;
    serve("unsorted", &unsorted)?;
    serve("base last", &call(Kind::Nomsg, &[at(8, 1, 5, 0), at(0, 0, 12, 0)], &[])?)?;

    let mut c3 = call(Kind::Msg, &[], &[])?;
    c3[7] = 2;
    serve("C3", &c3)?;

    println!("grant {} {}", grant(0, CREDIT_LIMIT)?, grant(100, CREDIT_LIMIT)?);
    Ok(())
}
