//! Records of 32,768 samples, each by a rule.

/// A sample lies from minus this to this.
pub const END: i64 = 1 << 40;
pub const LENGTH: usize = 32_768;

/// Each record with its name.
pub fn all() -> [(&'static str, Vec<i64>); 5] {
    [
        ("ends", by_index(either_end)),
        ("blocks", by_index(|i| either_end(i / 10_922))),
        ("squares", by_index(|i| i * i)),
        ("scattered", scattered()),
        ("line", by_index(|i| ((1 << 25) - 1) * i - (1 << 39))),
    ]
}

fn by_index(rule: impl Fn(i64) -> i64) -> Vec<i64> {
    (0..LENGTH as i64).map(rule).collect()
}

fn either_end(turn: i64) -> i64 {
    if turn % 2 == 0 {
        END
    } else {
        -END
    }
}

/// The top 41 bits of a linear congruence modulo 2^64 from 1 on, less 2^40.
fn scattered() -> Vec<i64> {
    let next = |state: &u64| Some(state.wrapping_mul(6_364_136_223_846_793_005).wrapping_add(1_442_695_040_888_963_407));
    std::iter::successors(Some(1), next).skip(1).take(LENGTH).map(|state| (state >> 23) as i64 - END).collect()
}
