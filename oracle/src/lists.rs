//! Packed work lists (document 02, 2026-03): a reader and a writer of the oracle's own, which go by the document's words and not
//! by ours, and what `pack` and `unpack` must print by them. `runs` has the runs of the two programs.

pub mod runs;

use crate::call::{Call, Entry};
use crate::lines::lines;

/// A job: its function's number and its arguments.
pub type Job = (u64, Vec<u64>);

pub const NAMES: [(u64, Entry); 6] =
    [(1, Entry::RF), (2, Entry::RC), (3, Entry::RD), (4, Entry::RG), (5, Entry::RJ), (6, Entry::CEL)];

pub fn entry_of(function: u64) -> Option<Entry> {
    NAMES.into_iter().find(|&(number, _)| number == function).map(|(_, entry)| entry)
}

/// "in groups of seven bits, low group first, top bit set while more follow, shortest form only": as many groups as the bits
/// fill.
pub fn number(n: u64) -> Vec<u8> {
    let bits = (64 - n.leading_zeros()).max(1);
    let groups = bits.div_ceil(7);
    (0..groups).map(|i| (n >> (7 * i) & 127) as u8 | if i + 1 < groups { 128 } else { 0 }).collect()
}

pub fn written(jobs: &[Job]) -> Vec<u8> {
    jobs.iter().flat_map(|(function, arguments)| [vec![*function], arguments.clone()].concat()).flat_map(number).collect()
}

/// The number at the front of some bytes and how many it takes, or 14 or 15. What ends a number is its first byte below 128;
/// whether those bytes are its shortest form is asked of the writer. With no end in sight a number of more bytes may come, as
/// long as it is below 2^64.
fn read_number(bytes: &[u8]) -> Result<(u64, usize), u32> {
    match bytes.iter().take(10).position(|&byte| byte < 128) {
        Some(last) => {
            let value = bytes[..=last].iter().rev().fold(0u128, |value, &byte| value << 7 | u128::from(byte & 127));
            match u64::try_from(value) {
                Ok(n) if number(n) == bytes[..=last] => Ok((n, last + 1)),
                _ => Err(15),
            }
        }
        None if bytes.len() >= 10 => Err(15),
        None => Err(14),
    }
}

fn read_job(bytes: &[u8]) -> Result<(Job, usize), u32> {
    let (function, mut at) = read_number(bytes)?;
    let entry = entry_of(function).ok_or(16u32)?;
    let mut arguments = Vec::new();
    for _ in 0..entry.arity() {
        let (argument, size) = read_number(&bytes[at..])?;
        arguments.push(argument);
        at += size;
    }
    Ok(((function, arguments), at))
}

/// The jobs of a list up to its first refusal, with the place at which the refused job begins.
pub fn read(list: &[u8]) -> (Vec<Job>, Option<(usize, u32)>) {
    let (mut jobs, mut at) = (Vec::new(), 0);
    while at < list.len() {
        match read_job(&list[at..]) {
            Ok((job, size)) => {
                jobs.push(job);
                at += size;
            }
            Err(number) => return (jobs, Some((at, number))),
        }
    }
    (jobs, None)
}

/// What `unpack` must print, on standard output and on standard error.
fn unpacked(list: &[u8]) -> (Vec<u8>, Vec<u8>) {
    let (jobs, refused) = read(list);
    let mut text = String::new();
    for (function, arguments) in jobs {
        text += &format!("{:?}", entry_of(function).expect("a job that was read has a known function"));
        arguments.iter().for_each(|bits| text += &format!(" {bits:016X}"));
        text.push('\n');
    }
    let said = refused.map_or(String::new(), |(place, number)| format!("byte {place}: refused {number}\n"));
    (text.into_bytes(), said.into_bytes())
}

/// What `pack` must print.
fn packed(text: &[u8]) -> (Vec<u8>, Vec<u8>) {
    let mut jobs = Vec::new();
    for (i, line) in lines(text).enumerate() {
        match std::str::from_utf8(line).ok().and_then(Call::parse) {
            Some(_) => jobs.push(job(std::str::from_utf8(line).expect("a call is text"))),
            None => return (written(&jobs), format!("line {}: bad line\n", i + 1).into_bytes()),
        }
    }
    (written(&jobs), Vec::new())
}

/// The job of a good line. (Not by the call's floats: a NaN's bits are to stay as they are.)
fn job(line: &str) -> Job {
    let mut words = line.split(' ');
    let name = words.next().expect("a name");
    let (function, _) = NAMES.into_iter().find(|(_, entry)| format!("{entry:?}") == name).expect("a known name");
    (function, words.map(|word| u64::from_str_radix(word, 16).expect("digits")).collect())
}

#[cfg(test)]
mod tests {
    use super::runs::word;
    use super::*;
    use crate::random::Random;

    #[test]
    fn numbers_are_read_as_they_are_written() {
        let mut random = Random::new(1);
        for _ in 0..10_000 {
            let n = word(&mut random);
            let bytes = number(n);
            assert_eq!(read_number(&bytes), Ok((n, bytes.len())));
            assert_eq!(read_number(&[bytes.clone(), vec![9]].concat()), Ok((n, bytes.len())));
            for cut in 0..bytes.len() {
                assert_eq!(read_number(&bytes[..cut]), Err(14));
            }
        }
        assert_eq!(number(300), [0xAC, 2]);
    }

    #[test]
    fn what_is_refused() {
        let ten = |last: u8| [vec![0xFF; 9], vec![last]].concat();
        assert_eq!(read_number(&ten(1)), Ok((u64::MAX, 10)));
        assert_eq!(read_number(&[0x81, 0]), Err(15));
        for last in [0, 2, 127, 128, 255] {
            assert_eq!(read_number(&ten(last)), Err(15));
        }
        assert_eq!(read(&[0x87]), (vec![], Some((0, 14))));
        assert_eq!(read(&[7, 0x81, 0]), (vec![], Some((0, 16))));
        assert_eq!(read(&[2, 0, 1, 2]), (vec![(2, vec![0, 1])], Some((3, 14))));
        assert_eq!(read(&[]), (vec![], None));
    }
}
