//! What is a decimal: written from the sentence, with a cursor, where the definition has phases.

/// The digits that count, from the first to the last that is not 0.
const MOST: usize = 800;

struct Cursor<'a> {
    text: &'a [u8],
    at: usize,
}

impl Cursor<'_> {
    fn take(&mut self, any: &[u8]) -> Option<u8> {
        let byte = *self.text.get(self.at)?;
        any.contains(&byte).then(|| {
            self.at += 1;
            byte
        })
    }

    /// Digits, one at least; `fits` is asked of each before it is taken.
    fn digits(&mut self, mut fits: impl FnMut(u8) -> bool) -> Option<()> {
        let start = self.at;
        while let Some(digit) = self.text.get(self.at).filter(|byte| byte.is_ascii_digit()) {
            if !fits(digit - b'0') {
                return None;
            }
            self.at += 1;
        }
        (self.at > start).then_some(())
    }
}

/// The place of the byte that makes a text no number, or its length where it ends too soon; nothing where it is one.
pub fn place_of(text: &[u8]) -> Option<usize> {
    if matches!(text, b"inf" | b"-inf" | b"nan") {
        return None;
    }
    let mut cursor = Cursor { text, at: 0 };
    if number(&mut cursor).is_some() && cursor.at == text.len() {
        return None;
    }
    Some(cursor.at)
}

fn number(cursor: &mut Cursor) -> Option<()> {
    cursor.take(b"-");
    let mut seen = 0;
    let mut counts = |digit: u8| {
        let fits = digit == 0 || seen < MOST;
        seen += usize::from(seen > 0 || digit != 0);
        fits
    };
    cursor.digits(&mut counts)?;
    if cursor.take(b".").is_some() {
        cursor.digits(&mut counts)?;
    }
    if cursor.take(b"eE").is_some() {
        let sign = if cursor.take(b"+-") == Some(b'-') { -1 } else { 1 };
        let mut power = 0i64;
        cursor.digits(|digit| {
            power = power * 10 + i64::from(digit);
            i32::try_from(sign * power).is_ok()
        })?;
    }
    Some(())
}

#[cfg(test)]
mod tests {
    use super::*;

    #[test]
    fn places() {
        let none: [&[u8]; 10] =
            [b"0", b"-0.0", b"1.5", b"1e5", b"1E+05", b"1.5e-5", b"007", b"inf", b"1e2147483647", b"1e-2147483648"];
        for text in none {
            assert_eq!(place_of(text), None, "{text:?}");
        }
        let some: [(&[u8], usize); 14] = [
            (b"", 0),
            (b"-", 1),
            (b"+1", 0),
            (b".5", 0),
            (b"5.", 2),
            (b"5.e1", 2),
            (b"1e", 2),
            (b"1e+", 3),
            (b"1e+-1", 3),
            (b"-infinity", 1),
            (b"1.2.3", 3),
            (b"1 ", 1),
            (b"1e2147483648", 11),
            (b"1e-2147483649", 12),
        ];
        for (text, place) in some {
            assert_eq!(place_of(text), Some(place), "{text:?}");
        }
    }

    #[test]
    fn eight_hundred() {
        let ones = "1".repeat(MOST);
        assert_eq!(place_of(format!("00{ones}000.000e1").as_bytes()), None);
        assert_eq!(place_of(format!("0.0{ones}0").as_bytes()), None);
        assert_eq!(place_of(format!("0.0{ones}01").as_bytes()), Some(MOST + 4));
    }
}
