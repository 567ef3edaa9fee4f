//! Reports of work lists (document 02, 2026-05): what a report must hold, by the oracle's own counts and sums (`report/exact.rs`),
//! its text and the reading of texts. `draw` makes lists, `runs` asks the library and `texts` the two programs.

mod draw;
mod exact;
pub mod runs;
pub mod texts;

use crate::lists::NAMES;
use doc01::Answer;
use exact::Exact;
use std::collections::BTreeMap;

/// "more than 2^32 - 1 calls in all"
const MOST_CALLS: u128 = (1 << 32) - 1;
const TOO_MANY: u32 = 18;

/// The words of a report, and of a function in it: the calls, the tallies of 1 to 27, the rounds, the most, and the sum.
const WORDS: usize = 6 * BLOCK;
const BLOCK: usize = 64;
const LAST: u32 = 27;

type Words = [u64; WORDS];

/// What is known of one function.
#[derive(Clone, Debug)]
struct Part {
    calls: u64,
    refused: BTreeMap<u32, u64>,
    rounds: u64,
    most: u64,
    sum: Exact,
}

/// By the functions' numbers, from 1.
#[derive(Clone, Debug)]
pub struct Report([Part; 6]);

impl Report {
    pub fn empty() -> Report {
        Report([(); 6].map(|()| Part { calls: 0, refused: BTreeMap::new(), rounds: 0, most: 0, sum: Exact::ZERO }))
    }

    pub fn add(&mut self, function: u64, answer: Answer) {
        let part = &mut self.0[function as usize - 1];
        part.calls += 1;
        match answer {
            Answer::Value(bits, way) => {
                part.rounds += u64::from(way.rounds);
                part.most = part.most.max(way.rounds.into());
                part.sum.add(f64::from_bits(bits));
            }
            Answer::Refused(number) => *part.refused.entry(number).or_default() += 1,
        }
    }

    fn join(&mut self, other: &Report) {
        for (part, more) in self.0.iter_mut().zip(&other.0) {
            part.calls += more.calls;
            more.refused.iter().for_each(|(&number, times)| *part.refused.entry(number).or_default() += times);
            part.rounds += more.rounds;
            part.most = part.most.max(more.most);
            part.sum.join(&more.sum);
        }
    }

    fn calls(&self) -> u128 {
        self.0.iter().map(|part| u128::from(part.calls)).sum()
    }

    fn words(&self) -> Words {
        let mut words = [0; WORDS];
        for (part, block) in self.0.iter().zip(words.chunks_exact_mut(BLOCK)) {
            block[0] = part.calls;
            part.refused.iter().for_each(|(&number, &times)| block[number as usize] = times);
            block[LAST as usize + 1] = part.rounds;
            block[LAST as usize + 2] = part.most;
            block[LAST as usize + 3..].copy_from_slice(&part.sum.words());
        }
        words
    }

    /// The text's form is docs/DECISIONS.md's.
    pub fn text(&self) -> String {
        let mut text = String::from("report 1\n");
        for (part, (_, entry)) in self.0.iter().zip(NAMES) {
            text += &format!("{entry:?} calls {}\n", part.calls);
            for (number, times) in part.refused.iter().filter(|(_, &times)| times > 0) {
                text += &format!("{entry:?} refused {number} {times}\n");
            }
            text += &format!("{entry:?} rounds {}\n{entry:?} most {}\n", part.rounds, part.most);
            text += &format!("{entry:?} exact {}\n{entry:?} sum {:016X}\n", part.sum.hex(), part.sum.rounded());
        }
        text
    }

    /// The report whose text begins these lines, or how many of them are good.
    fn read(lines: &[&[u8]]) -> Result<Report, usize> {
        let mut at = 0;
        let mut report = Report::empty();
        let line = |at: usize| lines.get(at).and_then(|line| std::str::from_utf8(line).ok());
        if line(at) != Some("report 1") {
            return Err(at);
        }
        at += 1;
        for (part, (_, entry)) in report.0.iter_mut().zip(NAMES) {
            let word = |at: usize, what: &str| line(at)?.strip_prefix(&format!("{entry:?} {what} "));
            let number = |at: usize, what: &str| whole(word(at, what)?);
            part.calls = number(at, "calls").ok_or(at)?;
            at += 1;
            while let Some((number, times)) = word(at, "refused").and_then(|words| words.split_once(' ')) {
                let number = whole(number).filter(|&n| 1 <= n && n <= LAST.into()).ok_or(at)? as u32;
                let times = whole(times).filter(|&times| times > 0).ok_or(at)?;
                if part.refused.last_key_value().is_some_and(|(&last, _)| last >= number) {
                    return Err(at);
                }
                part.refused.insert(number, times);
                at += 1;
            }
            part.rounds = number(at, "rounds").ok_or(at)?;
            part.most = number(at + 1, "most").ok_or(at + 1)?;
            part.sum = word(at + 2, "exact").and_then(Exact::parse).ok_or(at + 2)?;
            if word(at + 3, "sum") != Some(&format!("{:016X}", part.sum.rounded())) {
                return Err(at + 3);
            }
            at += 4;
        }
        Ok(report)
    }
}

/// A u64 in its shortest form.
fn whole(text: &str) -> Option<u64> {
    text.parse().ok().filter(|n: &u64| n.to_string() == text)
}

/// Whether two reports' calls, or a report's and a list's, are too many.
fn too_many(calls: u128, more: u128) -> bool {
    calls + more > MOST_CALLS
}

#[cfg(test)]
mod tests {
    use super::*;
    use crate::call::{Call, Entry};
    use crate::lines::lines;

    fn example() -> Report {
        let mut report = Report::empty();
        for (function, entry, args) in [
            (1, Entry::RF, vec![4.0; 3]),
            (1, Entry::RF, vec![1.0, 0.5, 0.25]),
            (1, Entry::RF, vec![0.0; 3]),
            (1, Entry::RF, vec![-1.0, 0.0, 0.0]),
            (1, Entry::RF, vec![0.0, 0.0, 1.0]),
            (6, Entry::CEL, vec![1.0, 1.0, -1.0, -1.0]),
        ] {
            report.add(function, Call::new(entry, &args).judged().answer);
        }
        report
    }

    #[test]
    fn a_text() {
        // 0.5 and 1.370171633266872 (3FF5EC39172C9C25) are 2^51 and 15EC39172C9C25 in hex, in units of 2^-52, and these 2^1022 ours
        let shown = format!("{:X}{}", ((1u64 << 51) + 0x15_EC39_172C_9C25) << 2, "0".repeat(255));
        let text = example().text();
        let rf = format!("RF calls 5\nRF refused 2 1\nRF refused 3 2\nRF rounds 4\nRF most 4\nRF exact {shown}\n");
        let sum = format!("RF sum {:016X}\n", (0.5 + f64::from_bits(0x3FF5_EC39_172C_9C25)).to_bits());
        let none =
            |name| format!("{name} calls 0\n{name} rounds 0\n{name} most 0\n{name} exact 0\n{name} sum 0000000000000000\n");
        let begins = ["report 1\n".to_string(), rf, sum, none("RC"), none("RD"), none("RG"), none("RJ")].concat();
        assert!(text.starts_with(&begins), "{text}{begins}");
        assert!(
            text.contains("CEL calls 1\nCEL rounds 1\nCEL most 1\nCEL exact -") && text.ends_with("CEL sum BFF921FB54442D18\n")
        );
    }

    #[test]
    fn read_as_written() {
        let report = example();
        let text = report.text();
        let all: Vec<&[u8]> = lines(text.as_bytes()).collect();
        let back = Report::read(&all).expect("its own text");
        assert_eq!((back.words(), back.text()), (report.words(), text.clone()));
        for (i, line) in all.iter().enumerate() {
            // a line left out is missed there, or where the one before it must not stand: a tally may be left out
            let less: Vec<&[u8]> = all.iter().enumerate().filter(|(j, _)| *j != i).map(|(_, line)| *line).collect();
            let tally = line.starts_with(b"RF refused");
            assert_eq!(Report::read(&less).err(), (!tally).then_some(i), "{}", line.escape_ascii());
            for changed in
                [[*line, b" "].concat(), [b" ", *line].concat(), line.to_ascii_lowercase(), line[..line.len() - 1].to_vec()]
            {
                let mut other = all.clone();
                other[i] = &changed;
                // an exact sum with a digit less is another one, and then the rounded one is not its own
                let next = line.len() > 20 && changed.len() < line.len() && line.windows(7).any(|word| word == b" exact ");
                let bad = if changed == *line { None } else { Some(i + usize::from(next)) };
                assert_eq!(Report::read(&other).err(), bad, "{}", changed.escape_ascii());
            }
        }
    }

    #[test]
    fn joined_in_words() {
        let (one, two) = (example(), example());
        let mut both = Report::empty();
        both.join(&one);
        assert_eq!(both.words(), one.words());
        both.join(&two);
        let words = both.words();
        assert_eq!((words[0], words[2], words[3], words[28], words[29]), (10, 2, 4, 8, 4));
        assert_eq!((words[5 * BLOCK], words[5 * BLOCK + 29], both.calls()), (2, 1, 12));
        assert!(!too_many(12, MOST_CALLS - 12) && too_many(12, MOST_CALLS - 11));
    }
}
