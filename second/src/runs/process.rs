//! One run of a program.

use std::io::{self, ErrorKind, Write};
use std::process::{Command, Stdio};
use std::thread::sleep;
use std::time::Duration;

/// The pause between two pieces of a text, long enough for the program to read the first.
const PAUSE: Duration = Duration::from_millis(2);

/// What the program writes to standard output when the text comes on standard input in so many pieces.
pub fn output(program: &str, text: &[u8], pieces: usize) -> io::Result<Vec<u8>> {
    let mut child = Command::new(program)
        .stdin(Stdio::piped())
        .stdout(Stdio::piped())
        .spawn()?;
    let mut input = child.stdin.take().expect("a piped standard input");
    write_in_pieces(&mut input, text, pieces)?;
    drop(input);
    Ok(child.wait_with_output()?.stdout)
}

/// Writes the text with pauses; the reader may leave its end unread.
fn write_in_pieces(input: &mut impl Write, text: &[u8], pieces: usize) -> io::Result<()> {
    let length = text.len().div_ceil(pieces).max(1);
    for (number, piece) in text.chunks(length).enumerate() {
        if number > 0 {
            sleep(PAUSE);
        }
        match input.write_all(piece) {
            Err(error) if error.kind() == ErrorKind::BrokenPipe => return Ok(()),
            outcome => outcome?,
        }
    }
    Ok(())
}
