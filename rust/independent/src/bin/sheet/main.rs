//! `sheet FILE..` prints the whole sheet of these files, worked by the second implementation alone. With the one word `-` it prints a sheet for each
//! line of standard input, of the files that the line names with a space between. A file that cannot be opened or read is one of no bytes.

use independent::sheet::sheet;
use std::io::{self, BufRead, Write};
use std::{env, fs};

fn sheet_of<T: AsRef<std::path::Path>>(names: impl Iterator<Item = T>) -> String {
    let files: Vec<Vec<u8>> = names.map(|name| fs::read(name).unwrap_or_default()).collect();
    sheet(&files)
}

fn main() -> io::Result<()> {
    let mut out = io::stdout().lock();
    let names: Vec<_> = env::args_os().skip(1).collect();
    if names != ["-"] {
        return out.write_all(sheet_of(names.iter()).as_bytes());
    }
    for line in io::stdin().lock().lines() {
        out.write_all(sheet_of(line?.split_whitespace()).as_bytes())?;
    }
    Ok(())
}
