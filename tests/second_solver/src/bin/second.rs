//! Reads standard input to its end and writes the program's output.

use std::io::{self, Read, Write};

fn main() -> io::Result<()> {
    let mut text = Vec::new();
    io::stdin().lock().read_to_end(&mut text)?;
    let mut out = io::stdout().lock();
    out.write_all(&second_solver::program::run(&text))?;
    out.flush()
}
