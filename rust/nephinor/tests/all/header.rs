//! The header for C says the same numbers and sentences.

use nephinor::Refusal;

fn header() -> String {
    let path = format!("{}/../../include/nephinor.h", env!("CARGO_MANIFEST_DIR"));
    std::fs::read_to_string(path).expect("the header is part of the repository")
}

const REFUSALS: [(&str, Refusal); 9] = [
    ("NEPHINOR_BLOCK_VERSION", Refusal::BlockVersion),
    ("NEPHINOR_BLOCK_LENGTH", Refusal::BlockLength),
    ("NEPHINOR_BLOCK_LIMIT", Refusal::BlockLimit),
    ("NEPHINOR_BLOCK_FORM", Refusal::BlockForm),
    ("NEPHINOR_BLOCK_UNDECLARED", Refusal::BlockUndeclared),
    ("NEPHINOR_LENT_SIZE", Refusal::LentSize),
    ("NEPHINOR_ROOM_TOO_SMALL", Refusal::RoomTooSmall { needed: 0 }),
    ("NEPHINOR_LIST_FORM", Refusal::ListForm),
    ("NEPHINOR_LIST_AGAINST_RULES", Refusal::ListAgainstRules),
];

#[test]
fn numbers() {
    let header = header();
    for (index, (name, refusal)) in REFUSALS.iter().enumerate() {
        assert_eq!(usize::from(refusal.number()), index + 1);
        let end = if index == 8 { "\n" } else { "," };
        assert!(header.contains(&format!(" {name} = {}{end}", index + 1)), "{name}");
    }
    let sizes = [
        ("NEPHINOR_MOST_VARIABLES", nephinor::MOST_VARIABLES),
        ("NEPHINOR_MOST_ARRAYS", nephinor::MOST_ARRAYS),
        ("NEPHINOR_MOST_STATEMENTS", nephinor::MOST_STATEMENTS),
        ("NEPHINOR_MOST_CELLS_OF_AN_ARRAY", nephinor::MOST_CELLS_OF_AN_ARRAY),
        ("NEPHINOR_MOST_INSTRUCTIONS", nephinor::MOST_INSTRUCTIONS),
        ("NEPHINOR_MOST_REGISTERS", nephinor::MOST_REGISTERS),
        ("NEPHINOR_MOST_BLOCK_BYTES", nephinor::MOST_BLOCK_BYTES),
        ("NEPHINOR_LIST_ROOM", nephinor::LIST_ROOM),
        ("NEPHINOR_TABLE_SIZE", nephinor::calls::TABLE),
    ];
    for (name, size) in sizes {
        assert!(header.contains(&format!(" {name} = {size}")), "{name}");
    }
}

/// A sentence that goes over several lines is one string to C.
#[test]
fn sentences() {
    let header = header();
    let pieces: Vec<&str> = header.split('"').collect();
    let joined: String = pieces
        .chunks(2)
        .map(|piece| match piece {
            [outside, text] if outside.trim().is_empty() => text.to_string(),
            [_, text] => format!("\n{text}"),
            _ => String::new(),
        })
        .collect();
    for (name, refusal) in REFUSALS {
        let said = refusal.to_string();
        let sentence = said.split(", which takes").next().expect("a part in front");
        assert!(joined.lines().any(|line| line == sentence), "{name}: {sentence}");
    }
}
