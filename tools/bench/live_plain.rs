//! Round trips over pipes, in plain Rust. Build it by `rustc -O --edition 2021`. The words: `echo` (each line that comes is answered by
//! one of 24 bytes, as a step is, before more is read), or `trips COUNT PROGRAM WORD ..` (the program is started, so many lines `step` are
//! written to it, each once the line before it is answered, and the round trips a second are printed).

use std::io::{Read, Write};
use std::process::{Command, Stdio};
use std::time::Instant;
use std::{env, io};

const ANSWER: &[u8] = b"8000c000 00001000 plain\n";

fn echo() -> io::Result<()> {
    let mut input = io::stdin().lock();
    // each line is written as it ends
    let mut output = io::stdout().lock();
    let mut piece = [0; 4096];
    loop {
        let count = input.read(&mut piece)?;
        if count == 0 {
            return Ok(());
        }
        for _ in piece[..count].iter().filter(|byte| **byte == b'\n') {
            output.write_all(ANSWER)?;
        }
    }
}

fn trips(count: u64, words: &[String]) -> io::Result<f64> {
    let mut program = Command::new(&words[0]).args(&words[1..]).stdin(Stdio::piped()).stdout(Stdio::piped()).spawn()?;
    let mut input = program.stdin.take().expect("a pipe");
    let mut output = program.stdout.take().expect("a pipe");
    let mut piece = [0; 4096];
    let began = Instant::now();
    for _ in 0..count {
        input.write_all(b"step\n")?;
        loop {
            let length = output.read(&mut piece)?;
            assert!(length > 0, "the program ended");
            if piece[length - 1] == b'\n' {
                break;
            }
        }
    }
    let seconds = began.elapsed().as_secs_f64();
    drop(input);
    assert!(program.wait()?.success());
    Ok(count as f64 / seconds)
}

fn main() -> io::Result<()> {
    let words: Vec<String> = env::args().skip(1).collect();
    if words[0] == "echo" {
        return echo();
    }
    let count = words[1].parse().expect("a count");
    println!("{:.0}", trips(count, &words[2..])?);
    Ok(())
}
