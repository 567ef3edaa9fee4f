//! What the four programs that read lines must print: readers and writers of the oracle's own, from document 01's listing and
//! from docs/DECISIONS.md, "The swing's lines".

use crate::call::{shown, Call, Entry};
use crate::lengths::{measured, whole};
use crate::profile;
use crate::swing::{judged, summed};
use doc01::Answer;
use std::path::{Path, PathBuf};
use std::process::Command;
use std::sync::OnceLock;

/// A program over lines, and what is asked of it.
#[derive(Clone, Copy, Debug, PartialEq, Eq)]
pub enum Program {
    Listing,
    Profile,
    Swing,
    Steps,
}

impl Program {
    pub const ALL: [Program; 4] = [Program::Listing, Program::Profile, Program::Swing, Program::Steps];

    /// As `./gatewren` calls it.
    pub fn name(self) -> &'static str {
        match self {
            Program::Listing => "listing",
            Program::Profile => "profile",
            Program::Swing => "swing",
            Program::Steps => "steps",
        }
    }

    /// Where it was built.
    pub fn path(self) -> PathBuf {
        let crate_name = match self {
            Program::Profile => "profiles",
            Program::Swing => "swings",
            Program::Listing | Program::Steps => self.name(),
        };
        root().join("target/bin").join(crate_name)
    }

    pub fn command(self) -> Command {
        command(&self.path())
    }

    /// Whether a line is answered: a call; three numbers; one that is a reading.
    pub fn takes(self, line: &[u8]) -> bool {
        match self {
            Program::Listing => call(line).is_some(),
            Program::Profile => profile_call(line).is_some(),
            Program::Swing => matches!(measured(line).as_deref(), Some([_, _, _])),
            Program::Steps => matches!(numbers(line).as_deref(), Some([0..=65535])),
        }
    }

    /// All that it must print.
    pub fn replies(self, input: &[u8]) -> Vec<u8> {
        match self {
            Program::Listing => listing(input, "carlson 2", call, |call| call.judged().answer),
            Program::Profile => listing(input, "profile 1", profile_call, profile::judged),
            Program::Swing => swing(input),
            Program::Steps => steps(input),
        }
        .into_bytes()
    }
}

pub fn root() -> PathBuf {
    PathBuf::from(env!("CARGO_MANIFEST_DIR")).join("..")
}

/// The command that runs a program that was built: on another machine than x86-64 by an emulator, whose words are asked for once.
pub fn command(path: &Path) -> Command {
    static BEFORE: OnceLock<Vec<String>> = OnceLock::new();
    let before = BEFORE.get_or_init(|| {
        let asked = Command::new(root().join("tools/x86-64")).output().expect("tools/x86-64 runs");
        String::from_utf8(asked.stdout).expect("words").split_whitespace().map(str::to_string).collect()
    });
    let Some((first, rest)) = before.split_first() else {
        return Command::new(path);
    };
    let mut command = Command::new(first);
    command.args(rest).arg(path);
    command
}

/// A line ends at a newline or with the input; after the last newline there is none.
pub fn lines(input: &[u8]) -> impl Iterator<Item = &[u8]> {
    let whole = input.strip_suffix(b"\n").unwrap_or(input);
    whole.split(|&byte| byte == b'\n').filter(move |_| !input.is_empty())
}

/// A line of the listing is text, its words lie between single blanks, and each is as long as it must be.
fn call(line: &[u8]) -> Option<Call> {
    Call::parse(std::str::from_utf8(line).ok()?)
}

/// The numbers of a line, if that is all it has: each a u64 in its shortest form, one blank between.
fn numbers(line: &[u8]) -> Option<Vec<u64>> {
    std::str::from_utf8(line).ok()?.split(' ').map(whole).collect()
}

/// Document 02, 2026-14: a call of the profile; cel's are none.
fn profile_call(line: &[u8]) -> Option<Call> {
    call(line).filter(|call| call.entry != Entry::CEL)
}

fn listing(input: &[u8], header: &str, read: fn(&[u8]) -> Option<Call>, answer: impl Fn(&Call) -> Answer) -> String {
    let mut text = format!("{header}\n");
    for line in lines(input) {
        text += &match read(line) {
            Some(call) => format!("{:?} {}\n", call.entry, shown(answer(&call))),
            None => "bad line\n".to_string(),
        };
    }
    text
}

fn swing(input: &[u8]) -> String {
    let mut text = String::new();
    for line in lines(input) {
        text += &match measured(line).as_deref() {
            Some(&[length, height, gravity]) => match judged((length, height, gravity)) {
                Answer::Value(bits, _) => format!("{bits:016X} {}\n", seconds(f64::from_bits(bits))),
                Answer::Refused(number) => format!("refused {number}\n"),
            },
            _ => "bad line\n".to_string(),
        };
    }
    text
}

/// The first line that is a number is the total, each later one up to 65,535 a reading; what is no such line is left out.
fn steps(input: &[u8]) -> String {
    let (mut text, mut total, mut readings) = (String::new(), None, Vec::new());
    for line in lines(input) {
        match (numbers(line).as_deref(), total) {
            (Some(&[n]), None) => total = Some(n),
            (Some(&[n]), Some(_)) if n < 65536 => readings.push(n as u16),
            _ => text += "bad line\n",
        }
    }
    text + &match total.map(|total| summed(total, &readings)) {
        Some(Some(sum)) => format!("{sum}\n"),
        Some(None) => "refused 13\n".to_string(),
        None => "bad line\n".to_string(),
    }
}

/// The f64's exact value to 12 places, half to even. It is below 2^63 and no less than 2^-11.
fn seconds(value: f64) -> String {
    let bits = value.to_bits();
    let (digits, shift) = ((1 << 52) + u128::from(bits % (1 << 52)), 1075 - (bits >> 52));
    let (exact, one) = (digits * 1_000_000_000_000, 1u128 << shift);
    let (whole, rest) = (exact / one, exact % one * 2);
    let ticks = whole + u128::from(rest > one || rest == one && whole % 2 == 1);
    format!("{}.{:012}", ticks / 1_000_000_000_000, ticks % 1_000_000_000_000)
}

#[cfg(test)]
mod tests {
    use super::*;

    fn said(program: Program, input: &[u8]) -> String {
        String::from_utf8(program.replies(input)).expect("text")
    }

    #[test]
    fn what_a_line_is() {
        let listed = |input: &[u8]| said(Program::Listing, input);
        assert_eq!(listed(b""), "carlson 2\n");
        assert_eq!(listed(b"\n"), "carlson 2\nbad line\n");
        assert_eq!(listed(b"x"), "carlson 2\nbad line\n");
        assert_eq!(listed(b"x\n"), "carlson 2\nbad line\n");
        assert_eq!(listed(b"x\n\n"), "carlson 2\nbad line\nbad line\n");
        let four = "4010000000000000";
        let call = format!("RF {four} {four} {four}");
        let answer = "carlson 2\nRF 3FE0000000000000 0 closed 0\n";
        assert_eq!(listed(call.as_bytes()), answer);
        assert_eq!(listed(format!("{call}\n").as_bytes()), answer);
        for bad in [format!("{call} "), format!("{call}\r"), format!(" {call}"), call.replace(' ', "  "), call.replace('R', "r")]
        {
            assert_eq!(listed(bad.as_bytes()), "carlson 2\nbad line\n");
        }
    }

    #[test]
    fn three_letters() {
        let one = "3FF0000000000000";
        let listed =
            said(Program::Listing, format!("CEL {one} {one} {one} {one}\nCEL {one} {one} {one}\nCE {one} {one}").as_bytes());
        assert_eq!(listed, "carlson 2\nCEL 3FF921FB54442D18 1 loop 0\nbad line\nbad line\n");
    }

    #[test]
    fn what_a_number_is() {
        assert_eq!(numbers(b"1 20 18446744073709551615"), Some(vec![1, 20, u64::MAX]));
        for bad in ["", "00", "01", "+1", "-1", "1 ", " 1", "1  2", "1\t2", "1\r", "18446744073709551616", "1.0", "1e3", "0x1"] {
            assert_eq!(numbers(bad.as_bytes()), None, "{bad}");
        }
        assert_eq!(
            said(Program::Swing, b"250000 50000 9806650\n250 mm 50.0 mm 9806650\n0 1 1\n1 2 1\n1 1"),
            "3FF07A114C26A24A 1.029801652398\n3FF07A114C26A24A 1.029801652398\nrefused 11\nrefused 12\nbad line\n"
        );
        assert_eq!(said(Program::Steps, b""), "bad line\n");
        assert_eq!(said(Program::Steps, b"x\n7\n65536\n65535\n0"), "bad line\nbad line\n8\n");
        assert_eq!(said(Program::Steps, b"7 mm\n7\n8"), "bad line\n7\n");
        assert_eq!(said(Program::Steps, b"18446744073709551615\n3\n4\n"), "refused 13\n");
    }

    /// The fixtures that the proved programs are run on by rt.
    #[test]
    fn fixtures() {
        for (program, crate_name) in [(Program::Profile, "profiles"), (Program::Swing, "swings"), (Program::Steps, "steps")] {
            let file =
                |name| std::fs::read(root().join("crates").join(crate_name).join(name)).expect("a program has its fixture");
            assert_eq!(program.replies(&file("stdin")), file("stdout"), "{crate_name}");
        }
    }
}
