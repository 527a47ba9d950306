//! Prints every line of the program crates/figures, worked by the second implementation alone. A module here works the lines of the module of the
//! same name there.

mod bars;
mod buffers;
mod dots;
mod drawn;
mod floats;
mod halves;
mod print;
mod records;
mod refusals;
mod streams;
mod sweep;
mod types;

fn main() {
    refusals::figures();
    halves::figures();
    sweep::figures();
    streams::figures();
    floats::figures();
    buffers::figures();
    drawn::figures();
    dots::figures();
    types::figures();
    bars::figures();
}
