//! One row: a function of ours and its reference on the same inputs, in throughput and in latency.

use std::hint::black_box;
use std::time::Instant;

/// Runs all inputs once; tells ns a call.
type Block = Box<dyn FnMut() -> f64>;

struct Timed {
    block: Block,
    least: f64,
}

impl Timed {
    fn new(block: Block) -> Timed {
        Timed { block, least: f64::INFINITY }
    }

    fn time(&mut self) {
        self.least = self.least.min((self.block)());
    }
}

pub struct Row {
    pub name: String,
    /// Throughput and latency; nothing where the symbol is not linked.
    ours: Option<[Timed; 2]>,
    reference: [Timed; 2],
}

impl Row {
    pub fn new<const N: usize>(
        name: &str,
        inputs: Vec<[f64; N]>,
        ours: Option<impl Fn([f64; N]) -> f64 + Copy + 'static>,
        reference: impl Fn([f64; N]) -> f64 + Copy + 'static,
    ) -> Row {
        let ours = ours.map(|f| both(inputs.clone(), f));
        Row { name: name.to_string(), ours, reference: both(inputs, reference) }
    }

    pub fn time(&mut self) {
        for (i, reference) in self.reference.iter_mut().enumerate() {
            if let Some(ours) = &mut self.ours {
                ours[i].time();
            }
            reference.time();
        }
    }

    /// The calls in throughput, once over.
    pub fn once(&mut self, ours: bool) {
        match (&mut self.ours, ours) {
            (Some(timed), true) => bench_counted(&mut timed[0]),
            (None, true) => {}
            (_, false) => bench_counted(&mut self.reference[0]),
        }
    }

    pub fn print(&self) {
        print!("{:<32}", self.name);
        for (i, reference) in self.reference.iter().enumerate() {
            match &self.ours {
                Some(ours) => print!("{:>9.1}{:>12.1}{:>9.2}", ours[i].least, reference.least, ours[i].least / reference.least),
                None => print!("{:>9}{:>12.1}{:>9}", "-", reference.least, "-"),
            }
        }
        println!();
    }
}

/// By its name callgrind knows what to count.
#[inline(never)]
#[no_mangle]
fn bench_counted(timed: &mut Timed) {
    timed.time();
}

fn both<const N: usize>(inputs: Vec<[f64; N]>, f: impl Fn([f64; N]) -> f64 + Copy + 'static) -> [Timed; 2] {
    let again = inputs.clone();
    [Timed::new(Box::new(move || throughput(&inputs, f))), Timed::new(Box::new(move || latency(&again, f)))]
}

/// Calls that do not wait for one another. `black_box` keeps each result, so that no two calls become one instruction.
fn throughput<const N: usize>(inputs: &[[f64; N]], f: impl Fn([f64; N]) -> f64) -> f64 {
    let start = Instant::now();
    for &args in inputs {
        black_box(f(args));
    }
    start.elapsed().as_nanos() as f64 / inputs.len() as f64
}

/// Each call waits for the one before: its arguments take up the last result's bits, masked by a hidden zero.
fn latency<const N: usize>(inputs: &[[f64; N]], f: impl Fn([f64; N]) -> f64) -> f64 {
    let hidden_zero = black_box(0u64);
    let mut last = 0.0f64;
    let start = Instant::now();
    for &args in inputs {
        let nothing = last.to_bits() & hidden_zero;
        last = f(args.map(|arg| f64::from_bits(arg.to_bits() ^ nothing)));
    }
    black_box(last);
    start.elapsed().as_nanos() as f64 / inputs.len() as f64
}
