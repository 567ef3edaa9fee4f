//! Decimals through the binding, beside the standard library's reader and printer.

use gatewren::decimal::{read, write, Unread, BYTES};
use gatewren::Refusal;

fn bits(text: &str) -> Result<u64, Unread> {
    read(text).map(f64::to_bits)
}

#[test]
fn texts_are_read_to_the_nearest() {
    for text in ["0", "-0", "1.5", "0.25", "-1e-3", "6.02E23", "1e+22", "1e23", "000.1000", "5e-324", "2.2250738585072014e-308"] {
        assert_eq!(bits(text), Ok(text.parse::<f64>().unwrap().to_bits()), "{text}");
    }
    // half-way between 2^53 and the next: to the even one, and a last digit more goes up
    assert_eq!(read("9007199254740993"), Ok(9007199254740992.0));
    assert_eq!(read("9007199254740993.00000000000000000000000000000001"), Ok(9007199254740994.0));
    assert_eq!(read("9007199254740995"), Ok(9007199254740996.0));
    assert_eq!(bits("-1e-400"), Ok((-0.0f64).to_bits()));
    assert_eq!(bits("0e2147483647"), Ok(0));
    assert_eq!((read("inf"), read("-inf")), (Ok(f64::INFINITY), Ok(f64::NEG_INFINITY)));
    assert!(read("nan").unwrap().is_nan());
    assert_eq!(read(b"250"), Ok(250.0));
}

#[test]
fn what_is_too_large_is_no_infinity() {
    // the middle between the largest f64 and 2^1024, and the last whole number below it
    let head = concat!(
        "1797693134862315807937289714053034150799341327100378269361737789804449682927647509466490179775872070",
        "9633028641669288791094655554785194040263065748867150582068190890200070838367627385484581771153176447",
        "5730270069855571366959622842914819860834936475292719074168444365510704342711559699508093042880177904",
        "17449779",
    );
    let (middle, below) = (format!("{head}2"), format!("{head}1"));
    assert_eq!(middle.parse(), Ok(f64::INFINITY));
    assert_eq!(read(&middle), Err(Unread::TooLarge));
    assert_eq!(read(&below), Ok(f64::MAX));
    assert_eq!(read("-1e309"), Err(Unread::TooLarge));
    assert_eq!(read("1e2147483647"), Err(Unread::TooLarge));
    assert_eq!(Unread::TooLarge.refusal(), Refusal::TooLarge);
    assert_eq!(Unread::TooLarge.to_string(), "refused 25: a decimal number is beyond the largest f64");
}

#[test]
fn what_is_no_number_has_its_place() {
    let places = [
        ("", 0),
        ("-", 1),
        ("+1", 0),
        (".5", 0),
        ("5.", 2),
        ("1,5", 1),
        (" 1", 0),
        ("1 ", 1),
        ("1.5.2", 3),
        ("1e", 2),
        ("1e+", 3),
        ("1e1.5", 3),
        ("--1", 1),
        ("infinity", 0),
        ("-infinity", 1),
        ("Inf", 0),
        ("-nan", 1),
        ("0x10", 1),
        ("1e2147483648", 11),
        ("1e-2147483649", 12),
        ("1_000", 1),
        ("1\0", 1),
    ];
    for (text, place) in places {
        assert_eq!(read(text), Err(Unread::NoNumber { place }), "{text}");
    }
    assert_eq!(bits("1e-2147483648"), Ok(0));
    assert_eq!(read("\u{0661}").unwrap_err().refusal(), Refusal::NoNumber);
    assert_eq!(Unread::NoNumber { place: 3 }.to_string(), "refused 26: a text is no decimal number, at byte 3");
}

#[test]
fn eight_hundred_digits_count() {
    let many = format!("1{}1", "0".repeat(798));
    assert!(read(&many).is_err_and(|no| no == Unread::TooLarge));
    assert_eq!(read(format!("{many}e-799")), Ok(1.0));
    assert_eq!(read(format!("000{many}000e-802")), Ok(1.0));
    assert_eq!(read(format!("{many}1e-800")), Err(Unread::NoNumber { place: 800 }));
    assert_eq!(read(format!("0.{}{many}", "0".repeat(5000))), Ok(0.0));
}

#[test]
fn the_shortest_text() {
    let texts = [
        (0.0, "0"),
        (-0.0, "-0"),
        (250.0, "250"),
        (0.001, "0.001"),
        (0.00001, "0.00001"),
        (0.000001, "1e-6"),
        (0.000012, "0.000012"),
        (1.370171633266872, "1.370171633266872"),
        (6.02e23, "6.02e23"),
        (5e-324, "5e-324"),
        (f64::MAX, "1.7976931348623157e308"),
        (1e16, "10000000000000000"),
        (1e17, "1e17"),
        (12345678901234567.0, "12345678901234568"),
        (-1.5, "-1.5"),
        (9007199254740993.0, "9007199254740992"),
        (-2.2250738585072014e-308, "-2.2250738585072014e-308"),
        (f64::INFINITY, "inf"),
        (-f64::INFINITY, "-inf"),
        (f64::NAN, "nan"),
        // both neighbours of 17 digits are equally near, and one of 16 does not read back: the upper one, as the standard library has it
        (1125899906842624.25, "1125899906842624.3"),
    ];
    for (x, text) in texts {
        assert_eq!(write(x).as_str(), text, "{x:e}");
        assert!(text.len() <= BYTES && (x.is_nan() || read(text).unwrap().to_bits() == x.to_bits()), "{text}");
    }
    assert_eq!(format!("[{:>6}]", write(1.5)), "[   1.5]");
    assert_eq!((write(1.5), write(1.5).len()), (write(1.5), 3));
}

#[test]
fn there_and_back() {
    let mut word = 1u64;
    for _ in 0..20_000 {
        word = word.wrapping_mul(6364136223846793005).wrapping_add(1442695040888963407);
        let x = f64::from_bits(word);
        if x.is_nan() {
            continue;
        }
        let text = write(x);
        assert_eq!(read(text).map(f64::to_bits), Ok(x.to_bits()), "{text}");
        assert_eq!(text.parse::<f64>().map(f64::to_bits), Ok(x.to_bits()), "{text}");
    }
}
