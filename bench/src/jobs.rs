//! Packed work lists through the C interface: reading and writing a list of jobs, one after the other (request 2026-03), and the
//! report of a list beside its answers alone (request 2026-05).

use crate::inputs::moderate;
use crate::random::Random;
use crate::symbols;
use std::hint::black_box;
use std::time::Instant;

const JOBS: usize = 100_000;
/// No job is longer.
const LONGEST: usize = 41;

pub struct Row {
    pub name: String,
    block: Box<dyn FnMut()>,
    bytes: f64,
    least: f64,
}

/// Nothing where the two are not linked.
pub fn rows() -> Vec<Row> {
    let any = |r: &mut Random| r.below(u64::MAX);
    let usual = |r: &mut Random| moderate(r).to_bits();
    let short = |r: &mut Random| (r.below(16) << 60) & 0x7FF0_0000_0000_0000;
    let read_and_written = [rows_of("moderate arguments", usual), rows_of("any arguments", any), rows_of("powers of two", short)];
    let reported = reports_of("moderate arguments", usual);
    read_and_written.into_iter().flatten().flatten().chain(reported.into_iter().flatten()).collect()
}

/// Jobs of Carlson's five functions in turn.
fn jobs_of(mut argument: impl FnMut(&mut Random) -> u64) -> Vec<[u64; 5]> {
    let mut random = Random::new(7);
    let arity = [0, 3, 2, 3, 3, 4];
    (0..JOBS)
        .map(|i| {
            let function = i % 5 + 1;
            let mut job = [function as u64, 0, 0, 0, 0];
            job[1..=arity[function]].iter_mut().for_each(|word| *word = argument(&mut random));
            job
        })
        .collect()
}

fn rows_of(what: &str, argument: impl FnMut(&mut Random) -> u64) -> Option<[Row; 2]> {
    let (read, write) = (symbols::READ_JOB?, symbols::WRITE_JOB?);
    let jobs = jobs_of(argument);
    let mut list = vec![0u8; LONGEST * JOBS];
    // Each call reads or writes what is lent to it, and that lives for the call.
    let put = move |list: &mut [u8]| {
        let mut place = 0;
        for job in &jobs {
            assert_eq!(unsafe { write(list.as_mut_ptr(), list.len(), &mut place, job) }, 0);
        }
        place
    };
    let length = put(&mut list);
    list.truncate(length);
    let mut room = vec![0u8; length];
    let bytes = length as f64 / JOBS as f64;
    let reading = move || {
        let (mut place, mut job) = (0, [0; 5]);
        while unsafe { read(list.as_ptr(), list.len(), &mut place, &mut job) } == 0 {
            black_box(&job);
        }
        assert_eq!(place, length);
    };
    let writing = move || {
        black_box(put(&mut room));
    };
    let row = |name: &str, block: Box<dyn FnMut()>| Row { name: format!("{name}, {what}"), block, bytes, least: f64::INFINITY };
    Some([row("read a job", Box::new(reading)), row("write a job", Box::new(writing))])
}

/// A list's report, and beside it each job read and answered with nothing made of the answer: the difference is what counting and
/// the exact sum take.
fn reports_of(what: &str, argument: impl FnMut(&mut Random) -> u64) -> Option<[Row; 2]> {
    let (read, write, report) = (symbols::READ_JOB?, symbols::WRITE_JOB?, symbols::REPORT_LIST?);
    let (rf, rc, rd, rg) = (symbols::RF?, symbols::RC?, symbols::RD?, symbols::RG?);
    let rj = symbols::RJ_POSITIVE?;
    let mut list = vec![0u8; LONGEST * JOBS];
    let mut length = 0;
    // Each call reads or writes what is lent to it, and that lives for the call.
    for job in jobs_of(argument) {
        assert_eq!(unsafe { write(list.as_mut_ptr(), list.len(), &mut length, &job) }, 0);
    }
    list.truncate(length);
    let bytes = length as f64 / JOBS as f64;
    let same = list.clone();
    let answering = move || {
        let (mut place, mut job) = (0, [0; 5]);
        let (mut value, mut rounds, mut road, mut rescalings) = (0.0, 0, 0, 0);
        while unsafe { read(list.as_ptr(), list.len(), &mut place, &mut job) } == 0 {
            let [function, bits @ ..] = job;
            let [x, y, z, p] = bits.map(f64::from_bits);
            let (v, n, r, s) = (&mut value, &mut rounds, &mut road, &mut rescalings);
            let number = match function {
                1 => unsafe { rf(x, y, z, v, n, r, s) },
                2 => unsafe { rc(x, y, v, n, r, s) },
                3 => unsafe { rd(x, y, z, v, n, r, s) },
                4 => unsafe { rg(x, y, z, v, n, r, s) },
                _ => unsafe { rj(x, y, z, p, v, n, r, s) },
            };
            black_box((number, value));
        }
    };
    let reporting = move || {
        let mut words = [0u64; 384];
        assert_eq!(unsafe { report(words.as_mut_ptr(), same.as_ptr(), same.len()) }, 0);
        black_box(words);
    };
    let row = |name: &str, block: Box<dyn FnMut()>| Row { name: format!("{name}, {what}"), block, bytes, least: f64::INFINITY };
    Some([row("answer a job", Box::new(answering)), row("report a job", Box::new(reporting))])
}

impl Row {
    pub fn time(&mut self) {
        let start = Instant::now();
        (self.block)();
        self.least = self.least.min(start.elapsed().as_nanos() as f64 / JOBS as f64);
    }

    pub fn print(&self) {
        println!("{:<32}{:>9.1}{:>17.2}{:>17.1}", self.name, self.least, 1000.0 / self.least, self.bytes);
    }
}
