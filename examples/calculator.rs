//! The calculator in Rust, over libplt.a: keys each line of standard input on
//! one journal, and prints the reply.

#[allow(dead_code)]
#[path = "../tests/cross/src/library.rs"]
mod library;

use std::io::{self, BufRead, Write};

fn main() -> io::Result<()> {
    let mut journal = [0; library::JOURNAL];
    let mut reply = [0; library::REPLY];
    let mut output = io::stdout().lock();
    for line in io::stdin().lock().split(b'\n') {
        let length = library::command(&mut journal, &line?, &mut reply);
        output.write_all(&reply[..length])?;
        output.write_all(b"\n")?;
    }
    output.flush()
}
