//! `transcript < FILE`: prints the transcript of a connection in plain Rust, as a peer to measure `write_conn` by.
use std::io::{self, BufWriter, Read, Write};

/// Writes bytes as the text that stands for them.
fn show(out: &mut impl Write, bytes: &[u8]) -> io::Result<()> {
    let mut at = 0;
    while at < bytes.len() {
        let byte = bytes[at];
        at += 1;
        match byte {
            b'\r' if bytes.get(at) == Some(&b'\n') => {
                out.write_all(b"~")?;
                at += 1;
            }
            b'\r' => out.write_all(b"\\r")?,
            b'\n' => out.write_all(b"\\n")?,
            b'\t' => out.write_all(b"\\t")?,
            b'\\' => out.write_all(b"\\\\")?,
            b'~' => out.write_all(b"\\~")?,
            0x20..=0x7e => out.write_all(&[byte])?,
            _ => write!(out, "\\x{byte:02x}")?,
        }
    }
    Ok(())
}

fn main() -> io::Result<()> {
    let mut bytes = Vec::new();
    io::stdin().read_to_end(&mut bytes)?;
    let mut out = BufWriter::with_capacity(65_536, io::stdout().lock());
    writeln!(out, "conn 0 done {}", bytes.len())?;
    for line in bytes.split_inclusive(|byte| *byte == b'\n') {
        out.write_all(b"| ")?;
        show(&mut out, line)?;
        out.write_all(b"\n")?;
    }
    out.flush()
}
