//! Prints the listing of the day file on standard input.

use std::io::{Read, Write};

extern "C" {
    fn cormcushion_list_shares(file: *const u8, file_length: usize, text: *mut u8, text_room: usize) -> u64;
}

fn main() -> std::io::Result<()> {
    let (mut file, mut text) = (Vec::new(), [0; 2_048]);
    std::io::stdin().read_to_end(&mut file)?;
    let answer = unsafe { cormcushion_list_shares(file.as_ptr(), file.len(), text.as_mut_ptr(), text.len()) };
    let (number, figure) = (answer / 1_000_000_000_000_000 % 100, answer % 1_000_000_000_000_000);
    match number {
        0 => std::io::stdout().write_all(&text[..figure as usize]),
        _ => writeln!(std::io::stdout(), "REFUSED {number} {figure}"),
    }
}
