//! A call of an entry: its text, and whom to ask.

use doc01::{Answer, Judged};
use std::fmt;
use untouched::bulirsch::cel;
use untouched::carlson::{elliprc, elliprd, elliprf, elliprg, elliprj};

#[derive(Clone, Copy, Debug, PartialEq, Eq)]
#[allow(clippy::upper_case_acronyms)] // as the listing has them
pub enum Entry {
    RC,
    RF,
    RD,
    RG,
    RJ,
    CEL,
}

impl Entry {
    pub const ALL: [Entry; 6] = [Entry::RC, Entry::RF, Entry::RD, Entry::RG, Entry::RJ, Entry::CEL];
    /// Document 01's five.
    pub const CARLSON: [Entry; 5] = [Entry::RC, Entry::RF, Entry::RD, Entry::RG, Entry::RJ];

    pub fn arity(self) -> usize {
        match self {
            Entry::RC => 2,
            Entry::RF | Entry::RD | Entry::RG => 3,
            Entry::RJ | Entry::CEL => 4,
        }
    }
}

#[derive(Clone, Copy, Debug)]
pub struct Call {
    pub entry: Entry,
    /// Those beyond the entry's number of arguments are not looked at.
    args: [f64; 4],
}

impl Call {
    pub fn new(entry: Entry, args: &[f64]) -> Call {
        assert_eq!(args.len(), entry.arity());
        let mut all = [0.0; 4];
        all[..args.len()].copy_from_slice(args);
        Call { entry, args: all }
    }

    pub fn args(&self) -> &[f64] {
        &self.args[..self.entry.arity()]
    }

    /// The arguments' bits, zeros beyond them.
    pub fn bits(&self) -> [u64; 4] {
        self.args.map(bits)
    }

    /// `RF 4010000000000000 4010000000000000 4010000000000000`, and nothing looser.
    pub fn parse(line: &str) -> Option<Call> {
        let mut words = line.split(' ');
        let name = words.next()?;
        let entry = Entry::ALL.into_iter().find(|entry| format!("{entry:?}") == name)?;
        let args = words.map(parse_bits).collect::<Option<Vec<f64>>>()?;
        (args.len() == entry.arity()).then(|| Call::new(entry, &args))
    }

    /// What the documents say.
    pub fn judged(&self) -> Judged {
        let [x, y, z, p] = self.args;
        match self.entry {
            Entry::RC => doc01::rc(x, y),
            Entry::RF => doc01::rf(x, y, z),
            Entry::RD => doc01::rd(x, y, z),
            Entry::RG => doc01::rg(x, y, z),
            Entry::RJ => doc01::rj(x, y, z, p),
            Entry::CEL => doc01::cel(x, y, z, p),
        }
    }

    /// What the untouched crate says: a value, or a number for no. Not to be asked where document 01 says 9 or 10. Its cel has
    /// neither `cel1` nor `cel2`, as the text does not.
    ///
    /// Elsewhere it ends. Its loops are capped but for the AGM of RD and RG, and RJ calls itself; whether these go on
    /// is decided by sums, products, quotients, roots, fused multiply-adds, absolute values and comparisons only, and
    /// those are IEEE's in both builds. Powers, logarithms, arc tangents and the polynomial, where the two differ, come
    /// into values that decide neither. So both builds make the same passes there and go equally deep.
    pub fn untouched(&self) -> Result<f64, u32> {
        let [x, y, z, p] = self.args;
        let said = match self.entry {
            Entry::RC => elliprc(x, y),
            Entry::RF => elliprf(x, y, z),
            Entry::RD => elliprd(x, y, z),
            Entry::RG => elliprg(x, y, z),
            Entry::RJ => elliprj(x, y, z, p),
            Entry::CEL => cel(x, y, z, p),
        };
        said.map_err(doc01::refusal)
    }
}

impl fmt::Display for Call {
    fn fmt(&self, f: &mut fmt::Formatter) -> fmt::Result {
        write!(f, "{:?}", self.entry)?;
        self.args().iter().try_for_each(|&arg| write!(f, " {:016X}", bits(arg)))
    }
}

/// One pattern for every NaN.
pub fn bits(value: f64) -> u64 {
    if value.is_nan() {
        0x7FF8_0000_0000_0000
    } else {
        value.to_bits()
    }
}

fn parse_bits(word: &str) -> Option<f64> {
    let upper_case_hex = |c: u8| c.is_ascii_digit() || (b'A'..=b'F').contains(&c);
    let well_formed = word.len() == 16 && word.bytes().all(upper_case_hex);
    well_formed.then(|| f64::from_bits(u64::from_str_radix(word, 16).expect("hexadecimal")))
}

/// `3FE0000000000000 0 closed 0` or `refused 3`.
pub fn shown(answer: Answer) -> String {
    match answer {
        Answer::Value(bits, way) => {
            let road = format!("{:?}", way.road).to_lowercase();
            format!("{bits:016X} {} {road} {}", way.rounds, way.rescalings)
        }
        Answer::Refused(number) => format!("refused {number}"),
    }
}
