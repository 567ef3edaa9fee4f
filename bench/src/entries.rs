//! The entries: beside the untouched crate's on plain f64; the bench profile's beside our own. Unless said otherwise arguments
//! are moderate.

use crate::clock::Row;
use crate::inputs::{between, many, moderate};
use crate::symbols;
use untouched::bulirsch;
use untouched::carlson::{elliprc, elliprd, elliprf, elliprg, elliprj};

pub fn rows() -> Vec<Row> {
    let mut rows = rc();
    let ours = symbols::RF.map(|f| move |[x, y, z]: [f64; 3]| value(|v, n, r, s| unsafe { f(x, y, z, v, n, r, s) }));
    rows.extend(of_three("RF", ours, |[x, y, z]| elliprf(x, y, z).unwrap_or(0.0)));
    let ours = symbols::RD.map(|f| move |[x, y, z]: [f64; 3]| value(|v, n, r, s| unsafe { f(x, y, z, v, n, r, s) }));
    rows.extend(of_three("RD", ours, |[x, y, z]| elliprd(x, y, z).unwrap_or(0.0)));
    let ours = symbols::RG.map(|f| move |[x, y, z]: [f64; 3]| value(|v, n, r, s| unsafe { f(x, y, z, v, n, r, s) }));
    rows.extend(of_three("RG", ours, |[x, y, z]| elliprg(x, y, z).unwrap_or(0.0)));
    rows.extend(rj());
    rows.extend(cel());
    rows.extend(profile());
    rows
}

/// Two of the bench profile's, beside our own base entries and not the crate's: what its tests and its sorting cost.
fn profile() -> Vec<Row> {
    let three = symbols::PROFILE_RF.zip(symbols::RF).map(|(ours, base)| {
        let inputs = many(|r| [moderate(r), moderate(r), moderate(r)]);
        let asked = |f: Three| move |[x, y, z]: [f64; 3]| value(|v, n, r, s| unsafe { f(x, y, z, v, n, r, s) });
        Row::new("profile RF, beside RF", inputs, Some(asked(ours)), asked(base))
    });
    let four = symbols::PROFILE_RJ.zip(symbols::RJ_POSITIVE).map(|(ours, base)| {
        let inputs = many(|r| [moderate(r), moderate(r), moderate(r), moderate(r)]);
        let asked = |f: Four| move |[x, y, z, p]: [f64; 4]| value(|v, n, r, s| unsafe { f(x, y, z, p, v, n, r, s) });
        Row::new("profile RJ, beside RJ", inputs, Some(asked(ours)), asked(base))
    });
    three.into_iter().chain(four).collect()
}

type Three = unsafe extern "C" fn(f64, f64, f64, *mut f64, *mut u32, *mut u32, *mut u32) -> u32;
type Four = unsafe extern "C" fn(f64, f64, f64, f64, *mut f64, *mut u32, *mut u32, *mut u32) -> u32;

/// The value of a call through the C interface; 0 for a refusal, which the stated inputs do not meet.
pub fn value(call: impl FnOnce(*mut f64, *mut u32, *mut u32, *mut u32) -> u32) -> f64 {
    let (mut value, mut count, mut road, mut rescalings) = (0.0, 0, 0, 0);
    call(&mut value, &mut count, &mut road, &mut rescalings);
    value
}

fn rc() -> Vec<Row> {
    let ours = symbols::RC.map(|f| move |[x, y]: [f64; 2]| value(|v, n, r, s| unsafe { f(x, y, v, n, r, s) }));
    let row = |name, inputs| Row::new(name, inputs, ours, |[x, y]| elliprc(x, y).unwrap_or(0.0));
    vec![
        row("RC", many(|r| [moderate(r), moderate(r)])),
        row("RC y < 0", many(|r| [moderate(r), -moderate(r)])),
        row("RC equal", many(|r| [moderate(r); 2])),
        row("RC x = 0", many(|r| [0.0, moderate(r)])),
    ]
}

fn of_three(
    name: &str,
    ours: Option<impl Fn([f64; 3]) -> f64 + Copy + 'static>,
    reference: impl Fn([f64; 3]) -> f64 + Copy + 'static,
) -> Vec<Row> {
    let row = |what: &str, inputs| Row::new(format!("{name} {what}").trim_end(), inputs, ours, reference);
    let two_equal = many(|r| {
        let y = moderate(r);
        [moderate(r), y, y]
    });
    vec![
        row("", many(|r| [moderate(r), moderate(r), moderate(r)])),
        row("equal", many(|r| [moderate(r); 3])),
        row("two equal", two_equal),
        row("x = 0", many(|r| [0.0, moderate(r), moderate(r)])),
    ]
}

fn rj() -> Vec<Row> {
    let ours = symbols::RJ_POSITIVE.zip(symbols::RJ_NEGATIVE).map(|(above, below)| {
        move |[x, y, z, p]: [f64; 4]| {
            let f = if p < 0.0 { below } else { above };
            value(|v, n, r, s| unsafe { f(x, y, z, p, v, n, r, s) })
        }
    });
    let row = |name, inputs| Row::new(name, inputs, ours, |[x, y, z, p]| elliprj(x, y, z, p).unwrap_or(0.0));
    vec![
        row("RJ", many(|r| [moderate(r), moderate(r), moderate(r), moderate(r)])),
        row("RJ p < 0", many(|r| [moderate(r), moderate(r), moderate(r), -moderate(r)])),
        row("RJ equal", many(|r| [moderate(r); 4])),
        row("RJ x = 0", many(|r| [0.0, moderate(r), moderate(r), moderate(r)])),
    ]
}

/// The crate's cel without cel1 and cel2, which the text lacks, with its own tolerance and cap: as many passes on these inputs, or
/// seldom one more.
fn cel() -> Vec<Row> {
    let ours = symbols::CEL.map(|f| move |[kc, p, a, b]: [f64; 4]| value(|v, n, r, s| unsafe { f(kc, p, a, b, v, n, r, s) }));
    let row = |name, inputs| Row::new(name, inputs, ours, |[kc, p, a, b]| bulirsch::cel(kc, p, a, b).unwrap_or(0.0));
    vec![
        row("CEL", many(|r| [moderate(r), moderate(r), moderate(r), moderate(r)])),
        row("CEL p < 0", many(|r| [moderate(r), -moderate(r), moderate(r), moderate(r)])),
        row("CEL p = a = b = 1", many(|r| [moderate(r), 1.0, 1.0, 1.0])),
        row("CEL kc near 1", many(|r| [between(r, 0.9, 1.1), moderate(r), moderate(r), moderate(r)])),
    ]
}
