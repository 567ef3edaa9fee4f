//! The attribute: what it makes of literals, and where it puts the hooks.

use super::*;
use std::panic::catch_unwind;

fn twice(literal: f64) -> f64 {
    2.0 * literal
}

#[numeric_literals::replace_float_literals(twice(literal))]
fn literals() -> (f64, usize, &'static str) {
    (1.5 + -[2e1, 0.25][1], [1, 2, 3].len(), "1.5")
}

#[test]
fn float_literals_only() {
    assert_eq!(literals(), (2.5, 3, "1.5"));
}

#[numeric_literals::replace_float_literals(twice(literal))]
fn begun(n: u32) {
    for i in 0..9 {
        if i + 1 == n {
            break;
        }
    }
}

#[numeric_literals::replace_float_literals(twice(literal))]
fn replaced(n: u32) {
    for i in 0..9 {
        if i < n {
            continue;
        }
        break;
    }
}

#[numeric_literals::replace_float_literals(twice(literal))]
fn agm(n: u32) {
    let mut i = 0;
    while i < n {
        i += 1;
    }
}

/// Each pass that is begun counts, and the last statement but one says that the loop's result stands.
#[numeric_literals::replace_float_literals(twice(literal))]
fn cel_with_const(n: u32) -> Result<u32, u32> {
    let mut ans = 0;
    for i in 0..9 {
        if i + 1 < n {
            continue;
        }
        ans = i + 1;
        break;
    }
    if ans % 2 == 0 {
        return Ok(ans);
    }
    Err(ans)
}

#[test]
fn passes_and_road_of_cel() {
    for n in 1..9 {
        start();
        assert_eq!(cel_with_const(n).is_ok(), n % 2 == 0);
        assert_eq!(count(), n);
        assert_eq!(road() == Road::Loop, n % 2 == 0);
    }
}

#[test]
fn each_kind_of_pass() {
    for n in 1..9 {
        for (kind, passes) in [(begun as fn(u32), n), (replaced, n), (agm, n)] {
            start();
            kind(n);
            assert_eq!(count(), passes);
        }
    }
}

fn number_left_with(run: impl FnOnce() + std::panic::UnwindSafe) -> Option<u32> {
    let payload = catch_unwind(run).err()?;
    payload.downcast_ref::<Leave>().map(|leave| leave.0)
}

#[test]
fn forty_agm_passes_and_no_more() {
    start();
    assert_eq!(number_left_with(|| agm(40)), None);
    assert_eq!(number_left_with(|| agm(41)), Some(9));
    assert_eq!(count(), 80);
}

#[numeric_literals::replace_float_literals(twice(literal))]
fn elliprj_unchecked(calls: u32) {
    if calls > 1 {
        elliprj_unchecked(calls - 1);
    }
}

#[test]
fn four_calls_deep_and_no_more() {
    start();
    assert_eq!(number_left_with(|| elliprj_unchecked(4)), None);
    assert_eq!((deepest(), DEPTH.get()), (4, 0));
    assert_eq!(number_left_with(|| elliprj_unchecked(5)), Some(10));
    assert_eq!(DEPTH.get(), 0);
}
