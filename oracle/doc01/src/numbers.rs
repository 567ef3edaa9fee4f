//! The documents' number for each text that an entry of the Rust refuses with.

const NUMBERS: [(&str, &[(&str, u32)]); 6] = [
    (
        "elliprc: ",
        &[("x must be non-negative.", 2), ("y must be non-zero.", 4), ("Arguments cannot be NAN.", 1), ("Unexpected error.", 7)],
    ),
    (
        "elliprf: ",
        &[
            ("Arguments cannot be NAN.", 1),
            ("Arguments must be non-negative.", 2),
            ("At most one argument can be zero.", 3),
            ("Failed to converge.", 6),
        ],
    ),
    (
        "elliprd: ",
        &[
            ("x and y must be non-negative.", 2),
            ("Both x and y cannot be zero.", 3),
            ("z must be positive", 5),
            ("Arguments cannot be NAN.", 1),
            ("Failed to converge.", 6),
        ],
    ),
    ("elliprg: ", &[("Arguments must be non-negative.", 2), ("Arguments cannot be NAN.", 1), ("Arguments must be finite.", 8)]),
    (
        "elliprj: ",
        &[
            ("Arguments cannot be NAN.", 1),
            ("p cannot be zero.", 4),
            ("x, y, and z must be non-negative.", 2),
            ("At most one argument can be zero.", 3),
            ("Failed to converge.", 6),
        ],
    ),
    (
        "cel: ",
        &[
            ("kc cannot be zero.", 4),
            ("p cannot be zero.", 4),
            ("Arguments cannot be NAN.", 1),
            ("More than one argument in kc, p, a, b cannot be infinite.", 19),
            ("Failed to converge.", 6),
        ],
    ),
];

pub fn refusal(text: &str) -> u32 {
    let found = NUMBERS.iter().find_map(|(entry, table)| {
        let said = text.strip_prefix(entry)?;
        table.iter().find(|(known, _)| *known == said)
    });
    found.unwrap_or_else(|| panic!("no number for: {text}")).1
}
