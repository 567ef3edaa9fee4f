//! `examples`: document 01's sixteen settled examples and the printed ones, by both builds.

use crate::call::{shown, Call, Entry};
use doc01::{Answer, Way};

#[derive(Clone, Copy)]
pub enum Stated {
    Bits(u64),
    Refused(u32),
    /// A printed decimal; the crate asks for a relative 1e-15.
    Near(f64),
}

use Entry::{CEL, RC, RD, RF, RG, RJ};
use Stated::{Bits, Near, Refused};

const INF: f64 = f64::INFINITY;
const NAN: f64 = f64::NAN;

pub const SETTLED: [(Entry, &[f64], Stated); 16] = [
    (RF, &[4.0, 4.0, 4.0], Bits(0x3FE0_0000_0000_0000)),
    (RF, &[4.0, 0.0, 4.0], Bits(0x3FE9_21FB_5444_2D18)),
    (RF, &[INF, 0.0, 0.0], Refused(3)),
    (RF, &[INF, 0.0, 1.0], Bits(0)),
    (RF, &[NAN, -1.0, 1.0], Refused(1)),
    (RC, &[0.0, -4.0], Bits(0)),
    (RC, &[NAN, 0.0], Refused(4)),
    (RC, &[-1.0, 0.0], Refused(2)),
    (RD, &[4.0, 4.0, 4.0], Bits(0x3FC0_0000_0000_0000)),
    (RD, &[NAN, -1.0, 1.0], Refused(2)),
    (RD, &[0.0, 0.0, -1.0], Refused(3)),
    (RG, &[0.0, 0.0, 4.0], Bits(0x3FF0_0000_0000_0000)),
    (RG, &[INF, 0.0, 0.0], Refused(8)),
    (RJ, &[4.0, 4.0, 4.0, 4.0], Bits(0x3FC0_0000_0000_0000)),
    (RJ, &[3.0, 2.0, 2.0, -1.0], Bits(0)),
    (RJ, &[1.0, 1.0, 1.0, -INF], Bits(0)), // since document 02, 2026-07; no. 6 before
];

/// The crate's comments (the perimeter of an ellipse is 8 RG), and the case that document 01 has run.
pub const PRINTED: [(Entry, &[f64], Stated); 8] = [
    (RC, &[1.0, 0.5], Near(1.2464504802804608)),
    (RF, &[1.0, 0.5, 0.25], Near(1.370171633266872)),
    (RD, &[1.0, 0.5, 0.25], Near(4.022594757168912)),
    (RG, &[1.0, 0.5, 0.25], Near(0.7526721491833781)),
    (RJ, &[1.0, 0.5, 0.25, 0.125], Near(5.680557292035963)),
    (RG, &[0.0, 25.0, 9.0], Near(25.526998863398124 / 8.0)),
    (RD, &[1e-308, 1e-308, 1e-308], Refused(6)),
    (CEL, &[0.5, 1.0, 1.0, 1.0], Near(2.1565156474996434)),
];

pub fn run() -> bool {
    let settled = SETTLED.iter().map(|&(entry, args, stated)| shown_example(entry, args, stated, true));
    let printed = PRINTED.iter().map(|&(entry, args, stated)| shown_example(entry, args, stated, false));
    let wrong = settled.chain(printed).filter(|good| !good).count();
    println!("{} examples, {wrong} differ", SETTLED.len() + PRINTED.len());
    wrong == 0
}

/// Prints one; a settled value has count 0.
fn shown_example(entry: Entry, args: &[f64], stated: Stated, settled: bool) -> bool {
    let call = Call::new(entry, args);
    let answer = call.judged().answer;
    let untouched = call.untouched();
    let counted = !settled || !matches!(answer, Answer::Value(_, Way { rounds: 1.., .. }));
    let ruled = match answer {
        Answer::Value(bits, _) => Ok(f64::from_bits(bits)),
        Answer::Refused(number) => Err(number),
    };
    // Document 02, 2026-07, parts with the crate at p = -infinity.
    let parted = entry == RJ && args[3] == -INF;
    let good = counted && agrees(stated, ruled) && (parted || agrees(stated, untouched));
    let mark = if good { "ok    " } else { "DIFFER" };
    println!("{mark} {entry:?}{args:?}: {} = {ruled:?}, untouched {untouched:?}; stated {}", shown(answer), text(stated));
    good
}

fn agrees(stated: Stated, came_out: Result<f64, u32>) -> bool {
    match (stated, came_out) {
        (Bits(bits), Ok(value)) => value.to_bits() == bits,
        (Near(printed), Ok(value)) => (value - printed).abs() <= 1e-15 * printed.abs(),
        (Refused(number), Err(said)) => number == said,
        _ => false,
    }
}

fn text(stated: Stated) -> String {
    match stated {
        Bits(bits) => format!("{:?}", f64::from_bits(bits)),
        Near(printed) => format!("near {printed:?}"),
        Refused(number) => format!("no. {number}"),
    }
}
