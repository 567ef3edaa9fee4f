//! The leaves: beside the processor's root, the C library's fma and the standard library's other functions.

use crate::clock::Row;
use crate::inputs::{between, log_between, many, moderate};
use crate::symbols;

pub fn rows() -> Vec<Row> {
    let mut rows = roots();
    rows.extend(fused());
    let power = symbols::POW.map(|f| move |[a]: [f64; 1]| unsafe { f(a) });
    rows.push(Row::new("pow -3/2 [1e-3, 1e3]", many(|r| [moderate(r)]), power, |[a]| a.powf(-1.5)));
    rows.extend(series());
    rows
}

fn roots() -> Vec<Row> {
    let ours = symbols::SQRT.map(|f| move |[a]: [f64; 1]| unsafe { f(a) });
    let row = |name, inputs| Row::new(name, inputs, ours, |[a]| a.sqrt());
    vec![
        row("sqrt [1e-3, 1e3]", many(|r| [moderate(r)])),
        row("sqrt all normals", many(|r| [f64::from_bits((1 << 52) + r.below(0x7FE0_0000_0000_0000))])),
        row("sqrt subnormals", many(|r| [f64::from_bits(1 + r.below((1 << 52) - 1))])),
    ]
}

fn fused() -> Vec<Row> {
    let ours = symbols::MUL_ADD.map(|f| move |[a, b, c]: [f64; 3]| unsafe { f(a, b, c) });
    // No target feature is asked for, so this is a call of the C library's fma.
    let row = |name, inputs| Row::new(name, inputs, ours, |[a, b, c]: [f64; 3]| a.mul_add(b, c));
    let random = many(|r| [moderate(r), moderate(r), if r.coin() { moderate(r) } else { -moderate(r) }]);
    let cancelling = many(|r| {
        let (a, b) = (moderate(r), moderate(r));
        [a, b, -(a * b)]
    });
    vec![row("mul_add random", random), row("mul_add cancelling", cancelling)]
}

fn series() -> Vec<Row> {
    let atan = symbols::ATAN.map(|f| move |[a]: [f64; 1]| unsafe { f(a) });
    let ln = symbols::LN.map(|f| move |[a]: [f64; 1]| unsafe { f(a) });
    let ln_1p = symbols::LN_1P.map(|f| move |[a]: [f64; 1]| unsafe { f(a) });
    let mut rows = Vec::new();
    for (low, high) in [(2e-7, 1e-6), (0.01, 0.1), (0.1, 0.5), (0.5, 1.0), (1.0, 2.0), (2.0, 20.0)] {
        let inputs = many(|r| [log_between(r, low, high)]);
        rows.push(Row::new(&format!("atan [{low:?}, {high:?}]"), inputs, atan, |[a]| a.atan()));
    }
    for (low, high) in [(1e-300, 0.5), (0.5, 1.0), (1.0, 1.02), (1.0, 2.0), (2.0, 4.0), (2.0, 1e3), (1e3, 1e300)] {
        let inputs = many(|r| [log_between(r, low, high)]);
        rows.push(Row::new(&format!("ln [{low:?}, {high:?}]"), inputs, ln, |[a]| a.ln()));
    }
    for (low, high) in [(5e-7, 2e-6), (0.1, 0.75), (-0.5, -0.1), (-0.75, -0.5)] {
        let inputs = many(|r| [between(r, low, high)]);
        rows.push(Row::new(&format!("ln_1p [{low:?}, {high:?}]"), inputs, ln_1p, |[a]| a.ln_1p()));
    }
    rows
}
