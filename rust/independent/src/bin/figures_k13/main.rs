//! Prints every line of the program crates/figures_k13, worked by the second implementation alone. A module here works the lines of the module of the
//! same name there; the words of the lines and the records are those of the binary figures.

mod bank;
#[allow(dead_code)]
#[path = "../figures/print.rs"]
mod print;
mod quieter;
#[allow(dead_code)]
#[path = "../figures/records.rs"]
mod records;

fn main() {
    quieter::figures();
    bank::figures();
}
