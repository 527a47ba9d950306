//! The quieter of two records, handed back as the record itself, or the empty part and why.

use independent::compare::{quieter, quieter_record};

use crate::print::answer;
use crate::records::END;

pub fn figures() {
    let pairs: [(u64, &[i64], &[i64]); 6] = [
        (1, &[0, 1, 0, 1, 0], &[0, 1, 0, 1, 0, 1, 0]),
        (1, &[0, 0, 0, 1, 0, 0, 0], &[0, 0, 1, 0]),
        (2, &[0, 1, 4, 9, 16, 25], &[0, 0, 0, 1, 0, 0, 0]),
        (1, &[END, -END, END], &[0, 0, END + 1]),
        (1, &[0, 1], &[-END - 1, 0, 0]),
        (0, &[0, 1], &[0, 0, END + 1]),
    ];
    for (m, one, two) in pairs {
        of_records(m, one, two);
        of_records(m, two, one);
    }
}

fn of_records(m: u64, first: &[i64], second: &[i64]) {
    let handed = quieter_record(first, second, m).unwrap_or(&[]);
    let which = quieter(first, second, m).map(|which| which.number());
    let comma = if which.is_ok() { "," } else { "" };
    println!("quieter of{} and{} at {m}:{}{comma} {}", spaced(first), spaced(second), spaced(handed), answer(which));
}

/// Numbers, each after a space.
fn spaced(row: &[i64]) -> String {
    row.iter().map(|x| format!(" {x}")).collect()
}
