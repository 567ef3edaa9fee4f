//! Lengths as people write them: whole micrometres, or millimetres with ` mm` behind them (docs/DECISIONS.md, "Millimetres"). Read word by
//! word and held to exact fractions, where the proved reader goes byte by byte.

use crate::random::Random;

/// The numbers of a line, if that is all it has, the first two of them lengths: one blank between each two words.
pub fn measured(line: &[u8]) -> Option<Vec<u64>> {
    let mut words = std::str::from_utf8(line).ok()?.split(' ').peekable();
    let mut numbers = Vec::new();
    while let Some(word) = words.next() {
        let in_millimetres = numbers.len() < 2 && words.next_if_eq(&"mm").is_some();
        numbers.push(if in_millimetres { millimetres(word)? } else { whole(word)? });
    }
    Some(numbers)
}

/// A u64 in its shortest form.
pub fn whole(word: &str) -> Option<u64> {
    word.parse::<u64>().ok().filter(|n| n.to_string() == word)
}

/// So many micrometres, if they are whole: w and the places p are w + p / 10^n millimetres.
fn millimetres(word: &str) -> Option<u64> {
    let (w, places) = word.split_once('.').unwrap_or((word, "0"));
    if places.is_empty() || !places.bytes().all(|byte| byte.is_ascii_digit()) {
        return None;
    }
    let places = places.trim_end_matches('0');
    let rest = match places.len() {
        0 => 0,
        n @ 1..=3 => places.parse::<u64>().ok()? * 10u64.pow(3 - n as u32),
        _ => return None,
    };
    whole(w)?.checked_mul(1000)?.checked_add(rest)
}

/// A good text of so many micrometres, in one of the ways there are.
pub fn text(micrometres: u64, way: u64) -> String {
    let three = format!("{}.{:03}", micrometres / 1000, micrometres % 1000);
    match way {
        0 => three + " mm",
        1 => three + "00 mm",
        2 if micrometres % 1000 == 0 => format!("{} mm", micrometres / 1000),
        2 => three.trim_end_matches('0').to_string() + " mm",
        _ => micrometres.to_string(),
    }
}

/// One of them by chance, half of the time whole micrometres.
pub fn by_chance(micrometres: u64, random: &mut Random) -> String {
    text(micrometres, random.below(6))
}

#[cfg(test)]
mod tests {
    use super::*;

    #[test]
    fn what_a_length_is() {
        assert_eq!(measured(b"250.5 mm 50 mm 9806650"), Some(vec![250_500, 50_000, 9_806_650]));
        assert_eq!(measured(b"0.001 mm 0.050 mm 1"), Some(vec![1, 50, 1]));
        assert_eq!(measured(b"1.5000 mm 2"), Some(vec![1500, 2]));
        assert_eq!(measured(b"18446744073709551.615 mm"), Some(vec![u64::MAX]));
        for bad in [
            "1.0001 mm", "1. mm", ".5 mm", "1.5", "1.5mm", "1 m", "1 mmm", "1 mm ", "1  mm", "01 mm", "1.5 mm mm", "1 1 1 mm", "mm", "1 MM",
            "18446744073709551.616 mm", "-1.5 mm", "1,5 mm", "1.5e1 mm",
        ] {
            assert_eq!(measured(bad.as_bytes()), None, "{bad}");
        }
    }

    #[test]
    fn every_way_reads_back() {
        for n in [0, 1, 10, 100, 999, 1000, 250_500, 250_050, 250_005, 12_345_678] {
            for way in 0..4 {
                assert_eq!(measured(text(n, way).as_bytes()), Some(vec![n]), "{n} in way {way}");
            }
        }
    }
}
