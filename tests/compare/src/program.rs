//! The program `replay`, run once for each input. Where it cannot be run that is a difference like any other.

use crate::calls::{Way, NOT_STOPPED};
use std::io::{ErrorKind, Read, Write};
use std::net::Shutdown;
use std::os::fd::OwnedFd;
use std::os::unix::net::UnixDatagram;
use std::os::unix::process::ExitStatusExt;
use std::process::{Command, Stdio};
use std::sync::atomic::{AtomicU64, Ordering};
use std::sync::mpsc::{channel, RecvTimeoutError};
use std::time::Duration;
use std::{env, fs, io, thread};

/// How long a program may take to end once its input has come.
const PATIENCE: Duration = Duration::from_secs(30);

/// How long a program may take in all.
const LONGEST: Duration = Duration::from_secs(120);

/// EOS_REPLAY, else where the build puts it.
pub fn usual_file() -> String {
    let built = concat!(env!("CARGO_MANIFEST_DIR"), "/../../target/bin/replay");
    env::var("EOS_REPLAY").unwrap_or(built.to_string())
}

/// Whether there is a program to be run.
pub fn find(file: &str) -> Result<(), String> {
    match fs::metadata(file) {
        Ok(found) if found.is_file() => Ok(()),
        Ok(_) => Err(format!("program replay {file}: no file (EOS_REPLAY may name it)")),
        Err(why) => Err(format!("program replay {file}: {why} (EOS_REPLAY may name it)")),
    }
}

/// All that the program writes for what it is fed.
pub fn run(file: &str, blocks: &[&[u8]], way: Way) -> Result<Vec<u8>, String> {
    let report = match way {
        Way::Closed | Way::Held => through_pipe(file, blocks, way == Way::Held),
        Way::Singly => singly(file, &blocks.concat()),
        Way::File => from_file(file, &blocks.concat()),
    };
    report.map_err(|why| format!("program replay {file}: {why}"))
}

fn text(why: io::Error) -> String {
    why.to_string()
}

/// The report of a program that got its input from `stdin`; `feed` runs beside it, and is told when the
/// report is at its end.
fn report_of(
    file: &str,
    stdin: Stdio,
    feed: impl FnOnce(Option<std::process::ChildStdin>, &dyn Fn() -> bool) -> Result<(), String> + Send,
) -> Result<Vec<u8>, String> {
    let spawned = Command::new(file).stdin(stdin).stdout(Stdio::piped()).spawn();
    let mut child = spawned.map_err(|why| format!("{why} (EOS_REPLAY may name it)"))?;
    let (input, mut output) = (child.stdin.take(), child.stdout.take().expect("a pipe"));
    let (ended, end) = channel::<()>();
    let (over, wait) = channel::<()>();
    let mut report = Vec::new();
    let (fed, read) = thread::scope(|scope| {
        let feeder = scope.spawn(move || {
            feed(input, &|| end.recv_timeout(PATIENCE) == Err(RecvTimeoutError::Disconnected))
        });
        let reader = scope.spawn(|| {
            let read = output.read_to_end(&mut report).map_err(text);
            drop((ended, over));
            read
        });
        // One that never ends is ended, which its status tells.
        if wait.recv_timeout(LONGEST) == Err(RecvTimeoutError::Timeout) {
            child.kill().expect("a program of our own");
        }
        (feeder.join().expect("a thread that ends"), reader.join().expect("a thread that ends"))
    });
    let status = child.wait().map_err(text)?;
    fed?;
    read?;
    // The order leaves open with which status `too long` ends; a signal ends a program that broke.
    let stopped = report.ends_with(b"too long\n") && status.signal().is_none();
    if !status.success() && !stopped {
        return Err(format!("{status}"));
    }
    Ok(report)
}

/// A program that has stopped reads no more: what is left of the input is not its matter.
fn unless_closed(outcome: io::Result<()>) -> io::Result<()> {
    match outcome {
        Err(why) if why.kind() == ErrorKind::BrokenPipe => Ok(()),
        other => other,
    }
}

fn through_pipe(file: &str, blocks: &[&[u8]], held: bool) -> Result<Vec<u8>, String> {
    report_of(file, Stdio::piped(), |input, is_ended| {
        let mut input = input.expect("a pipe");
        let written = blocks.iter().try_for_each(|block| input.write_all(block));
        unless_closed(written).map_err(text)?;
        if held && !is_ended() {
            return Err(NOT_STOPPED.to_string());
        }
        Ok(())
    })
}

/// A datagram for each byte: a reading never joins two.
fn singly(file: &str, input: &[u8]) -> Result<Vec<u8>, String> {
    let (ours, theirs) = UnixDatagram::pair().map_err(text)?;
    ours.set_write_timeout(Some(PATIENCE)).map_err(text)?;
    let end = theirs.try_clone().map_err(text)?;
    report_of(file, Stdio::from(OwnedFd::from(theirs)), |_, is_ended| {
        let sent = input.iter().try_for_each(|&byte| ours.send(&[byte]).map(drop));
        // Behind what is still to be read comes the end of the input.
        end.shutdown(Shutdown::Read).map_err(text)?;
        sent.map_err(|why| format!("a byte was not read: {why}"))?;
        if !is_ended() {
            return Err(NOT_STOPPED.to_string());
        }
        Ok(())
    })
}

fn from_file(file: &str, input: &[u8]) -> Result<Vec<u8>, String> {
    static USED: AtomicU64 = AtomicU64::new(0);
    let name = format!("replay-{}-{}", std::process::id(), USED.fetch_add(1, Ordering::Relaxed));
    let trace = env::temp_dir().join(name);
    fs::write(&trace, input).map_err(text)?;
    let opened = fs::File::open(&trace);
    // It stays as long as it is open.
    fs::remove_file(&trace).map_err(text)?;
    report_of(file, Stdio::from(opened.map_err(text)?), |_, _| Ok(()))
}

#[cfg(test)]
mod tests {
    use super::*;

    const WAYS: [Way; 3] = [Way::Closed, Way::Singly, Way::File];

    /// What comes out is what was fed, in whatever way.
    #[test]
    fn all_is_fed_and_all_is_read() {
        let long = vec![b'7'; 3_000_000];
        let few: [&[&[u8]]; 4] = [&[], &[b"0"], &[b"00\n", b"\n", b"", b"\0\xff"], &[&long[..30], b"\n"]];
        for blocks in few {
            for way in WAYS {
                assert_eq!(run("cat", blocks, way), Ok(blocks.concat()), "{way:?}");
            }
        }
        assert_eq!(run("cat", &[&long, b"\n"], Way::Closed), Ok([&long[..], b"\n"].concat()));
        assert_eq!(run("cat", &[&long, b"\n"], Way::File), Ok([&long[..], b"\n"].concat()));
    }

    /// One that reads nothing leaves the writer without a reader: no difference by itself.
    #[test]
    fn a_closed_pipe_is_no_fault() {
        let long = vec![b'7'; 3_000_000];
        for way in [Way::Closed, Way::Held, Way::File] {
            assert_eq!(run("true", &[&long], way), Ok(vec![]), "{way:?}");
        }
    }

    #[test]
    fn faults_are_told() {
        let told = |file| run(file, &[b"00\n"], Way::Closed).unwrap_err();
        assert!(told("no/such/program").starts_with("program replay no/such/program: "));
        assert!(told("no/such/program").ends_with("(EOS_REPLAY may name it)"));
        assert_eq!(told("false"), "program replay false: exit status: 1");
        assert!(find("no/such/program").unwrap_err().ends_with("(EOS_REPLAY may name it)"));
        assert!(find(env!("CARGO_MANIFEST_DIR")).is_err());
        assert_eq!(find(concat!(env!("CARGO_MANIFEST_DIR"), "/Cargo.toml")), Ok(()));
    }
}
