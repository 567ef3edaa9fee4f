//! Document 01's settled and printed examples, and the leaves at a few points, through the binding.

use gatewren::{bench, cel, leaf, profile, rc, rd, rf, rg, rj_negative, rj_positive, Answer, Job, Refusal, Road, WorkList};
use gatewren::bench::Verdict;
use gatewren::{check_table, BadLine, Checked, Claim, Report};

const INF: f64 = f64::INFINITY;
const NAN: f64 = f64::NAN;
/// RF of these differs in the last place between the orders (x, y, z) and (z, y, x).
const PARTED: (f64, f64, f64) = (1.0, 2.0, 5.0);

fn value(bits: u64) -> Answer {
    by(Road::Closed, bits, 0, 0)
}

fn by(road: Road, bits: u64, rounds: u32, rescalings: u32) -> Answer {
    Answer::Value { value: f64::from_bits(bits), rounds, road, rescalings }
}

/// To the bit and the sign of a zero, where == would take -0 for 0.
fn same(came_out: Answer, wanted: Answer) {
    let bits = |answer: Answer| answer.value().map(f64::to_bits);
    assert_eq!(came_out, wanted);
    assert_eq!(bits(came_out), bits(wanted));
}

#[test]
fn the_sixteen_settled_examples() {
    let no = |number| Answer::Refused(Refusal::of(number).unwrap());
    same(rf(4.0, 4.0, 4.0), value(0x3FE0_0000_0000_0000));
    same(rf(4.0, 0.0, 4.0), value(0x3FE9_21FB_5444_2D18));
    same(rf(INF, 0.0, 0.0), no(3));
    same(rf(INF, 0.0, 1.0), by(Road::Infinite, 0, 0, 0));
    same(rf(NAN, -1.0, 1.0), no(1));
    same(rc(0.0, -4.0), value(0));
    same(rc(NAN, 0.0), no(4));
    same(rc(-1.0, 0.0), no(2));
    same(rd(4.0, 4.0, 4.0), value(0x3FC0_0000_0000_0000));
    same(rd(NAN, -1.0, 1.0), no(2));
    same(rd(0.0, 0.0, -1.0), no(3));
    same(rg(0.0, 0.0, 4.0), value(0x3FF0_0000_0000_0000));
    same(rg(INF, 0.0, 0.0), no(8));
    same(rj_positive(4.0, 4.0, 4.0, 4.0), value(0x3FC0_0000_0000_0000));
    same(rj_negative(3.0, 2.0, 2.0, -1.0), by(Road::Taylor, 0, 0, 0));
    same(rj_negative(1.0, 1.0, 1.0, -INF), by(Road::Infinite, 0, 0, 0));
    same(rj_negative(-1.0, 1.0, 1.0, -INF), no(2));
    same(rj_negative(1.0, 1.0, 1.0, -f64::MAX), no(6));
}

#[test]
fn the_printed_examples() {
    let near = |answer: Answer, printed: f64| {
        let value = answer.value().unwrap();
        assert!((value - printed).abs() <= 1e-15 * printed, "{value}, not {printed}");
    };
    near(rc(1.0, 0.5), 1.2464504802804608);
    near(rf(1.0, 0.5, 0.25), 1.370171633266872);
    near(rd(1.0, 0.5, 0.25), 4.022594757168912);
    near(rg(1.0, 0.5, 0.25), 0.7526721491833781);
    near(rj_positive(1.0, 0.5, 0.25, 0.125), 5.680557292035963);
    near(rg(0.0, 25.0, 9.0), 25.526998863398124 / 8.0);
    same(rd(1e-308, 1e-308, 1e-308), Answer::Refused(Refusal::NoResult));
}

#[test]
fn rounds_are_counted() {
    assert_eq!(rf(1.0, 0.5, 0.25), by(Road::Duplication, 0x3FF5_EC39_172C_9C25, 4, 0));
}

/// Request 2026-04: a road each, with and without rescalings.
#[test]
fn roads_and_rescalings() {
    let way = |answer: Answer| match answer {
        Answer::Value { road, rescalings, .. } => (road, rescalings),
        Answer::Refused(refusal) => panic!("{refusal}"),
    };
    let b = f64::from_bits;
    assert_eq!(way(rc(1.0, INF)), (Road::Closed, 0));
    assert_eq!(way(rf(1e300, 2e300, 3e300)), (Road::Duplication, 1));
    assert_eq!(way(rf(0.0, 1.0, 2.0)), (Road::Agm, 0));
    assert_eq!(way(rd(0.0, 1.0, 2.0)), (Road::Agm, 0));
    assert_eq!(way(rg(1.0, 0.5, 0.25)), (Road::Joint, 0));
    assert_eq!(way(rj_negative(1.0, 2.0, 3.0, -4.0)), (Road::Reduction, 0));
    let thirteen = b(13);
    assert_eq!(way(rj_positive(0.0, thirteen, thirteen, b(0x37E0_0000_0000_0000))), (Road::Closed, 2));
    let near = [0x7FE5_5555_5562_B9D6, 0x7FE5_5555_5555_5559, 0x7FEF_FFFF_FFFF_FFFF, 0xFFD5_5555_5555_5559].map(b);
    assert_eq!(way(rj_negative(near[0], near[1], near[2], near[3])), (Road::Taylor, 1));
    assert_eq!(way(bench::swing(250_000, 50_000, 9_806_650)), (Road::Agm, 0));
    assert_eq!(Road::Duplication.to_string(), "duplication");
}

#[test]
fn every_number_has_a_meaning() {
    let numbers: Vec<u32> = Refusal::ALL.iter().map(|refusal| refusal.number()).collect();
    assert_eq!(numbers, (1..=26).collect::<Vec<u32>>());
    assert!(Refusal::ALL.iter().all(|&refusal| Refusal::of(refusal.number()) == Some(refusal)));
    assert_eq!(Refusal::of(0), None);
    assert_eq!(Refusal::of(27), None);
    assert_eq!(Refusal::TooDeep.to_string(), "refused 10: a fifth nested RJ call would be needed");
}

/// Request 2026-09: 4, the steps, 1, 19, the zero, 20, 6, and document 02's own examples.
#[test]
fn cel_in_its_order() {
    let no = |number| Answer::Refused(Refusal::of(number).unwrap());
    let near = cel(0.5, 1.0, 1.0, 1.0).value().unwrap();
    assert!((near - 2.1565156474996434).abs() <= 1e-15 * near);
    same(cel(0.0, NAN, 1.0, 1.0), no(4));
    same(cel(1.0, -0.0, 1.0, 1.0), no(4));
    same(cel(NAN, 1.0, INF, INF), no(1));
    same(cel(INF, 1.0, INF, 1.0), no(19));
    same(cel(0.5, 1.0, INF, -INF), no(19));
    same(cel(-INF, 1.0, 1.0, 1.0), by(Road::Infinite, 0, 0, 0));
    same(cel(0.5, -INF, 1.0, 1.0), by(Road::Infinite, 0, 0, 0));
    same(cel(0.5, 1.0, -INF, 1.0), no(20));
    same(cel(0.5, 1.0, 1.0, INF), no(20));
    same(cel(2f64.powi(509), 1.0, 1.0, 1.0), no(6));
    assert_eq!(cel(0.5, INF, -1.0, 1.0).value().map(f64::to_bits), Ok((-0.0f64).to_bits()));
}

/// Request 2026-10: 1, 4, 21, 2, 3, and a zero or NaN p is refused alike by both.
#[test]
fn rj_in_two() {
    let no = |number| Answer::Refused(Refusal::of(number).unwrap());
    for (x, p, wanted) in [(NAN, -1.0, no(1)), (1.0, NAN, no(1)), (-1.0, -0.0, no(4)), (-1.0, -1.0, no(21)), (1.0, -INF, no(21))]
    {
        same(rj_positive(x, 1.0, 1.0, p), wanted);
    }
    for (x, p, wanted) in [(NAN, 1.0, no(1)), (1.0, NAN, no(1)), (-1.0, 0.0, no(4)), (-1.0, 1.0, no(21)), (1.0, INF, no(21))] {
        same(rj_negative(x, 1.0, 1.0, p), wanted);
    }
    same(rj_positive(1.0, 1.0, 1.0, INF), by(Road::Infinite, 0, 0, 0));
    same(rj_negative(-1.0, 1.0, 1.0, -1.0), no(2));
}

/// Request 2026-14: one answer in any order and for either zero, in any unit; 1 to 5, then 23, then 21.
#[test]
fn the_bench_profile() {
    let no = |number| Answer::Refused(Refusal::of(number).unwrap());
    let (x, y, z) = PARTED;
    assert_ne!(rf(x, y, z), rf(z, y, x));
    for (a, b, c) in [(x, z, y), (y, x, z), (y, z, x), (z, x, y), (z, y, x)] {
        same(profile::rf(a, b, c), profile::rf(x, y, z));
        same(profile::rg(a, b, c), profile::rg(x, y, z));
        same(profile::rj(a, b, c, 3.0), profile::rj(x, y, z, 3.0));
    }
    same(profile::rd(y, x, z), profile::rd(x, y, z));
    same(profile::rg(-0.0, 0.0, 0.0), value(0));
    assert_eq!(profile::rd(x, y, z).value().map(|v| v / 8.0), profile::rd(4.0 * x, 4.0 * y, 4.0 * z).value());
    let (least, most) = (2f64.powi(-64), 2f64.powi(64));
    assert!(profile::rf(least, most, 0.0).value().is_ok());
    same(profile::rf(f64::from_bits(least.to_bits() - 1), most, 0.0), no(23));
    same(profile::rf(1.0, 1.0, INF), no(23));
    same(profile::rf(INF, 0.0, 0.0), no(3));
    same(profile::rc(1.0, -2.0), rc(1.0, -2.0));
    same(profile::rc(NAN, -0.0), no(4));
    same(profile::rc(NAN, 1e300), no(1));
    same(profile::rd(1e300, 1.0, 0.0), no(5));
    same(profile::rj(1.0, 1.0, 1.0, -0.0), no(4));
    same(profile::rj(1.0, 1.0, 1.0, -INF), no(23));
    same(profile::rj(1.0, 1.0, 1.0, -1.0), no(21));
}

#[test]
fn no_10_is_told() {
    let tiny = f64::from_bits(1);
    assert_eq!(rj_negative(0.0, tiny, 0.25, -tiny), Answer::Refused(Refusal::TooDeep));
}

#[test]
fn leaves() {
    for x in [2.0, 0.5, 1e-310, f64::MAX, INF, 0.0, -0.0] {
        assert_eq!(leaf::sqrt(x).to_bits(), x.sqrt().to_bits());
    }
    assert!(leaf::sqrt(-1.0).is_nan());
    let tenth = 0.1;
    assert_eq!(leaf::mul_add(tenth, 10.0, -1.0), tenth.mul_add(10.0, -1.0));
    assert_ne!(leaf::mul_add(tenth, 10.0, -1.0), tenth * 10.0 - 1.0);
    assert_eq!(leaf::pow_neg_3_2(4.0), 0.125);
    assert_eq!(leaf::pow_neg_3_2(-0.0), INF);
    assert_eq!(leaf::atan(INF).to_bits(), 0x3FF9_21FB_5444_2D18);
    assert!((leaf::atan(1.0) - std::f64::consts::FRAC_PI_4).abs() < 1e-15);
    assert!((leaf::ln_1p(-0.5) + std::f64::consts::LN_2).abs() < 1e-15);
    assert!(leaf::ln_1p(0.8).is_nan());
}

/// Request 2026-02: at every number above zero, near the standard library's.
#[test]
fn logarithms() {
    for x in [2.0, 1.5, 1.01, 0.5, 0.25, f64::MIN_POSITIVE, f64::from_bits(1), f64::MAX] {
        assert!((leaf::ln(x) - x.ln()).abs() <= 1e-15 * x.ln().abs(), "{x}");
    }
    assert_eq!(leaf::ln(1.0).to_bits(), 0);
    assert_eq!(leaf::ln(1.0 + f64::EPSILON), f64::EPSILON - f64::EPSILON * f64::EPSILON / 2.0);
    for zero in [0.0, -0.0] {
        assert_eq!(leaf::ln(zero), -INF);
    }
    assert_eq!(leaf::ln(INF), INF);
    for none in [-1.0, -f64::from_bits(1), -INF, NAN] {
        assert!(leaf::ln(none).is_nan(), "{none}");
    }
}

#[test]
fn the_swing_time() {
    let period = |length, height, gravity| bench::swing(length, height, gravity).value();
    assert_eq!(period(250_000, 50_000, 9_806_650).map(f64::to_bits), Ok(0x3FF0_7A11_4C26_A24A));
    assert_eq!(period(0, 0, 0), Err(Refusal::OutOfRange));
    assert_eq!(period(10_000_001, 1, 1), Err(Refusal::OutOfRange));
    assert_eq!(period(1, 1, 20_000_001), Err(Refusal::OutOfRange));
    assert_eq!(period(u64::MAX, u64::MAX, u64::MAX), Err(Refusal::OutOfRange));
    assert_eq!(period(1, 0, 1), Err(Refusal::Height));
    assert_eq!(period(1, 2, 1), Err(Refusal::Height));
    assert!(period(1, 1, 1).is_ok());
}

#[test]
fn the_step_log() {
    assert_eq!(bench::steps(7, &[]), Ok(7));
    assert_eq!(bench::steps(7, &[65_535]), Ok(7));
    assert_eq!(bench::steps(120_000, &[65_500, 65_535, 12, 40]), Ok(120_076));
    assert_eq!(bench::steps(7, &[65_535, 0]), Ok(8));
    assert_eq!(bench::steps(7, &[9, 9, 9]), Ok(7));
    assert_eq!(bench::steps(u64::MAX - 1, &[3, 4]), Ok(u64::MAX));
    assert_eq!(bench::steps(u64::MAX, &[3, 4]), Err(Refusal::SumTooLarge));
}

#[test]
fn work_lists_go_there_and_back() {
    let jobs = [
        Job { function: 1, arguments: [0x3FF0_0000_0000_0000, 127, 128, 0] },
        Job { function: 5, arguments: [u64::MAX, 1 << 63, (1 << 63) - 1, 0] },
        Job { function: 2, arguments: [0, 16384, 0, 0] },
    ];
    let mut bytes = [0; 3 * Job::LONGEST];
    let mut place = 0;
    for job in jobs {
        place = job.write(&mut bytes, place).unwrap();
    }
    let list = &bytes[..place];
    assert_eq!(WorkList::new(list).collect::<Result<Vec<_>, _>>(), Ok(jobs.to_vec()));
    let no = |bytes: &[u8]| {
        let mut list = WorkList::new(bytes);
        let last = list.by_ref().last().unwrap();
        (last, list.place())
    };
    assert_eq!(no(&list[..place - 1]).0, Err(Refusal::ListCut));
    assert_eq!(no(&[2, 0, 0, 0x81, 0]), (Err(Refusal::NumberBad), 3));
    assert_eq!(no(&[7]), (Err(Refusal::UnknownFunction), 0));
    assert_eq!(Job { function: 7, ..jobs[0] }.write(&mut [], 0), Err(Refusal::UnknownFunction));
    assert_eq!(jobs[2].write(&mut [0; 4], 0), Err(Refusal::NoRoom));
    assert_eq!(jobs[2].write(&mut [0; 9], usize::MAX), Err(Refusal::NoRoom));
    assert_eq!(WorkList::new(&[]).next(), None);
}

/// Request 2026-11: the list's own refusals, 22, then the first bad row.
#[test]
fn tables_are_checked() {
    let one = 1f64.to_bits();
    // RC(0, -4) is +0, RC(1, 0) is refused with 4, RC(0, 1) is pi / 2
    let list = [[0, (-4f64).to_bits()], [one, 0], [0, one]].map(|[x, y]| Job { function: 2, arguments: [x, y, 0, 0] });
    let mut bytes = [0; 3 * Job::LONGEST];
    let place = list.iter().fold(0, |place, job| job.write(&mut bytes, place).unwrap());
    let table = |claims: &[Claim], tolerance| check_table(&bytes[..place], claims, tolerance);
    let ours = [rc(0.0, -4.0), rc(1.0, 0.0), rc(0.0, 1.0)].map(Claim::from);
    assert_eq!(table(&ours, 0), Checked::Accepted);
    let with = |row: usize, claim| {
        let mut claims = ours;
        claims[row] = claim;
        claims
    };
    // both zeros are one; the smallest numbers of both signs lie a step from it, two from each other
    assert_eq!(table(&with(0, Claim::value(-0.0)), 0), Checked::Accepted);
    for bits in [1, (1 << 63) + 1] {
        assert_eq!(table(&with(0, Claim::value(f64::from_bits(bits))), 0), Checked::BadRow(0));
        assert_eq!(table(&with(0, Claim::value(f64::from_bits(bits))), 1), Checked::Accepted);
    }
    for claim in [Claim::refused(3), Claim::value(4.0), Claim::value(0.0)] {
        assert_eq!(table(&with(1, claim), u64::MAX), Checked::BadRow(1));
    }
    for claim in [Claim::refused(0), Claim::value(NAN), Claim::value(INF), Claim::value(-INF)] {
        assert_eq!(table(&with(2, claim), u64::MAX), Checked::BadRow(2));
    }
    assert_eq!(table(&[Claim::refused(1); 3], 0), Checked::BadRow(0));
    assert_eq!(table(&[Claim::refused(1); 2], 0), Checked::Refused(Refusal::NumbersDiffer));
    assert_eq!(check_table(&bytes[..place - 1], &[], 0), Checked::Refused(Refusal::ListCut));
    assert_eq!(check_table(&[2, 0x81, 0], &ours, 0), Checked::Refused(Refusal::NumberBad));
    assert_eq!(check_table(&[], &[], 0), Checked::Accepted);
}

/// A packed list of the jobs.
fn packed(jobs: &[Job]) -> Vec<u8> {
    let mut bytes = vec![0; jobs.len() * Job::LONGEST];
    let place = jobs.iter().fold(0, |place, job| job.write(&mut bytes, place).unwrap());
    bytes.truncate(place);
    bytes
}

/// Jobs with values of both signs and every size, and refused ones: cel(1, 1, a, a) is about a times pi / 2.
fn month() -> Vec<Job> {
    let cel = |a: f64| Job { function: 6, arguments: [1.0, 1.0, a, a].map(f64::to_bits) };
    let rc = |x: f64, y: f64| Job { function: 2, arguments: [x.to_bits(), y.to_bits(), 0, 0] };
    let mut jobs: Vec<Job> = (-1074..1023).step_by(7).map(|k| cel(2f64.powi(k) * if k % 2 == 0 { 1.5 } else { -1.25 })).collect();
    jobs.extend([rc(0.0, 1.0), rc(1.0, 0.0), rc(-1.0, 1.0), rc(0.0, 1.0), rc(1.0, 2.0)]);
    jobs.extend([1.0, 2.0, 5.0].map(|x: f64| Job { function: 1, arguments: [x, 0.5, 0.25, 0.0].map(f64::to_bits) }));
    jobs
}

/// Request 2026-05: the counts and sums are those of the answers, in any order and in parts.
#[test]
fn reports() {
    let jobs = month();
    let mut report = Report::new();
    report.add(&packed(&jobs)).unwrap();
    assert_eq!((report.calls(2), report.refused(2, Refusal::ZeroGiven), report.refused(2, Refusal::BelowZero)), (5, 1, 1));
    assert_eq!((report.calls(1), report.calls(3), report.calls(6)), (3, 0, jobs.len() as u64 - 8));
    let rounds = [1.0, 2.0, 5.0].map(|x| match rf(x, 0.5, 0.25) {
        Answer::Value { rounds, .. } => rounds,
        Answer::Refused(refusal) => panic!("{refusal}"),
    });
    assert_eq!((report.rounds(1), report.most(1)), (rounds.iter().sum::<u32>().into(), rounds.into_iter().max().unwrap()));
    // two of the three are equal, and twice a number is exact
    let (half_pi, other) = (rc(0.0, 1.0).value().unwrap(), rc(1.0, 2.0).value().unwrap());
    assert_eq!(report.sum(2), (half_pi + half_pi) + other);
    for function in [0, 7, u32::MAX] {
        assert_eq!((report.calls(function), report.rounds(function), report.most(function)), (0, 0, 0));
        assert_eq!((report.sum(function).to_bits(), report.refused(function, Refusal::NanGiven)), (0, 0));
    }
    for parts in [1, 2, 3, 50] {
        let mut whole = Report::new();
        for part in jobs.chunks(jobs.len().div_ceil(parts)).rev() {
            let mut one = Report::new();
            let backwards: Vec<Job> = part.iter().rev().copied().collect();
            one.add(&packed(&backwards)).unwrap();
            whole.join(&one).unwrap();
        }
        assert_eq!(whole, report);
    }
}

#[test]
fn a_refused_list_leaves_the_report() {
    let mut report = Report::new();
    let list = packed(&month());
    report.add(&list).unwrap();
    let before = report.clone();
    assert_eq!(report.add(&list[..list.len() - 1]), Err(Refusal::ListCut));
    assert_eq!(report.add(&[&list[..], &[2, 0x81, 0]].concat()), Err(Refusal::NumberBad));
    assert_eq!(report.add(&[&list[..], &[7]].concat()), Err(Refusal::UnknownFunction));
    assert_eq!(report.add(&[]), Ok(()));
    assert_eq!(report, before);
}

/// Document 02: more than 2^32 - 1 calls in all, by texts that say so.
#[test]
fn too_many_calls() {
    let with =
        |calls: u64| Report::new().to_string().replace("RD calls 0", &format!("RD calls {calls}")).parse::<Report>().unwrap();
    let mut nearly = with(u64::from(u32::MAX) - 5);
    assert_eq!(nearly.add(&packed(&month()[..6])), Err(Refusal::TooMany));
    assert_eq!(nearly.join(&with(6)), Err(Refusal::TooMany));
    assert_eq!(nearly, with(u64::from(u32::MAX) - 5));
    assert_eq!(nearly.add(&packed(&month()[..2])), Ok(()));
    assert_eq!(nearly.join(&with(3)), Ok(()));
    assert_eq!(nearly.join(&with(1)), Err(Refusal::TooMany));
    assert_eq!((nearly.calls(3), nearly.calls(6)), (u64::from(u32::MAX) - 2, 2));
}

#[test]
fn texts_of_reports() {
    let mut report = Report::new();
    let none = ["RF", "RC", "RD", "RG", "RJ", "CEL"]
        .map(|name| format!("{name} calls 0\n{name} rounds 0\n{name} most 0\n{name} exact 0\n{name} sum 0000000000000000\n"));
    assert_eq!(report.to_string(), format!("report 1\n{}", none.concat()));
    report
        .add(&packed(&[Job { function: 2, arguments: [0, 1f64.to_bits(), 0, 0] }, Job { function: 2, ..Job::default() }]))
        .unwrap();
    // pi / 2 is 3FF921FB54442D18: its digits times 2^1022, in units of 2^-1074
    let exact = format!("{:X}{}", 0x19_21FB_5444_2D18u64 << 2, "0".repeat(255));
    let rc = format!("RC calls 2\nRC refused 4 1\nRC rounds 0\nRC most 0\nRC exact {exact}\nRC sum 3FF921FB54442D18\n");
    assert_eq!(report.to_string(), format!("report 1\n{}{rc}{}", none[0], none[2..].concat()));
    report.add(&packed(&month())).unwrap();
    let text = report.to_string();
    assert_eq!(text.parse(), Ok(report.clone()));
    assert_eq!(text.trim_end().parse(), Ok(report));
    // what is below zero is its size with a sign
    let minus = |k: i32| Job { function: 6, arguments: [1.0, 1.0, -(2f64.powi(k)), -(2f64.powi(k))].map(f64::to_bits) };
    let (mut below, mut above) = (Report::new(), Report::new());
    below.add(&packed(&[minus(900), minus(-900)])).unwrap();
    above
        .add(&packed(&[minus(900), minus(-900)].map(|job| Job { arguments: job.arguments.map(|bits| bits & !(1 << 63)), ..job })))
        .unwrap();
    assert_eq!(below.to_string(), above.to_string().replace("CEL exact ", "CEL exact -").replace("CEL sum 7", "CEL sum F"));
    assert_eq!(below.to_string().parse(), Ok(below.clone()));
    below.join(&above).unwrap();
    assert!(below.to_string().ends_with("CEL exact 0\nCEL sum 0000000000000000\n"));
}

#[test]
fn texts_of_no_report() {
    let mut report = Report::new();
    report.add(&packed(&month())).unwrap();
    let text = report.to_string();
    let bad = |from: &str, to: &str| text.replacen(from, to, 1).parse::<Report>().unwrap_err().line;
    assert_eq!(bad("report 1", "report 2"), 1);
    assert_eq!(bad("RF calls 3", "RF calls 03"), 2);
    assert_eq!(bad("RF calls 3", "RF calls +3"), 2);
    assert_eq!(bad("RC refused 2 1\n", "RC refused 2 0\n"), 8);
    assert_eq!(bad("RC refused 2 1\n", "RC refused 28 1\n"), 8);
    assert_eq!(bad("RC refused 2 1\n", "RC refused 5 1\n"), 9);
    assert_eq!(bad("RD exact 0", "RD exact -0"), 17);
    assert_eq!(bad("RD exact 0", "RD exact 00"), 17);
    assert_eq!(bad("RD exact 0", "RD exact 1"), 18);
    assert_eq!("".parse::<Report>(), Err(BadLine { line: 1 }));
    let lines = text.lines().count();
    assert_eq!(format!("{text}\n").parse::<Report>(), Err(BadLine { line: lines + 1 }));
    assert_eq!(text.trim_end().rsplit_once('\n').unwrap().0.parse::<Report>(), Err(BadLine { line: lines }));
    assert_eq!(BadLine { line: 3 }.to_string(), "line 3: bad line");
}

/// The bench's file of knees, line by line, is what ./gatewren drag answers.
#[test]
fn the_days_file() {
    let root = concat!(env!("CARGO_MANIFEST_DIR"), "/../../examples/");
    let read = |name: &str| std::fs::read_to_string(format!("{root}{name}")).unwrap();
    let answered: String = read("knees.txt")
        .lines()
        .map(|line| {
            let fields: Vec<&str> = line.split(' ').collect();
            let numbers: Vec<u64> = fields[1..].iter().filter_map(|field| field.parse().ok()).collect();
            let ([length, height, gravity, time, limit], 6) = (&numbers[..], fields.len()) else { return "bad line\n".to_string() };
            match bench::drag(*length, *height, *gravity, *time, *limit) {
                Ok(verdict) => format!("{} {verdict}\n", fields[0]),
                Err(refusal) => format!("{} refused {}\n", fields[0], refusal.number()),
            }
        })
        .collect();
    assert_eq!(answered, read("knees.expected").split("knees ").next().unwrap());
}

#[test]
fn the_verdict_and_the_decrement() {
    let period = f64::from_bits(0x3FF0_7A11_4C26_A24A);
    let knee = |time, limit| bench::drag(250_000, 50_000, 9_806_650, time, limit);
    assert_eq!(knee(1_047_000_000, 20_000_000), Ok(Verdict { passes: true, below: false, excess: 17_198_348, period }));
    assert_eq!(knee(1_029_801_652, 0), Ok(Verdict { passes: true, below: true, excess: 0, period }));
    assert_eq!(knee(1_029_801_653, 0), Ok(Verdict { passes: false, below: false, excess: 1, period }));
    assert_eq!(knee(1_029_801_653, 1).map(|verdict| verdict.passes), Ok(true));
    assert_eq!(knee(u64::MAX, u64::MAX).map(|verdict| verdict.passes), Ok(true));
    assert_eq!(bench::drag(0, 1, 1, 1, 1), Err(Refusal::OutOfRange));
    assert_eq!(bench::drag(250_000, 500_000, 9_806_650, 1, 1), Err(Refusal::Height));
    assert_eq!(bench::decay(7, 7).map(f64::to_bits), Ok(0));
    assert_eq!(bench::decay(100, 90).map(f64::to_bits), Ok(0x3FBA_F8E8_210A_4161));
    assert_eq!(bench::decay(90, 100).map(f64::to_bits), Ok(0xBFBA_F8E8_210A_415C));
    assert_eq!(bench::decay(0, 1), Err(Refusal::Amplitude));
    assert_eq!(bench::decay(1, (1 << 53) + 1), Err(Refusal::Amplitude));
}
