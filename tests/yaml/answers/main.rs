//! What `cj_yaml` reads and writes, for the tests in tests/yaml.
//!
//! Standard input, or the file that the argument names, has texts, each behind a line with its
//! length in bytes. For each, one line of JSON is printed: its documents, each with its value, its
//! warnings, the place of each value in it, and the text that is written of it; or its fault.
#![tactic(auto)]

mod answer;
mod frames;

use answer::answer;
use frames::next_frame;
use std::alloc::Global;
use std::fs::File;
use std::io::{self, BufWriter, Write};

fn serve<W: Write>(alloc: Global, input: &[u8], out: &mut W) -> io::Result<()> {
    let mut rest = input;
    for _ in 0..input.len() {
        let Some((text, behind)) = next_frame(rest) else {
            break;
        };
        let line = answer(alloc, text)?;
        out.write_all(line.as_bytes())?;
        out.write_all(b"\n")?;
        rest = behind;
    }
    Ok(())
}

fn main(rt: HostRuntime) -> io::Result<()> {
    let alloc = rt.alloc();
    let mut input = Vec::new(alloc);
    match std::env::args(&rt)?.nth(1) {
        Some(name) => io::copy(&mut File::open(&rt, name.as_str())?, &mut input)?,
        None => io::copy(&mut rt.reader(), &mut input)?,
    };
    let mut out = BufWriter::new(alloc, io::writer(&rt))?;
    serve(alloc, input.as_slice(), &mut out)?;
    out.flush()
}
