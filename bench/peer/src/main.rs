//! Holds the stored answers of `sw_examples` beside what serde and serde_json make of the same texts.

mod adapters;
mod nests;

use std::process::ExitCode;

const STORED: &str = include_str!("../../../crates/sw_examples/stdout");

const WHOLE: &str = "no floats are carried, and whole numbers have up to 128 bits";
const EVERY: &str = "every entry is kept, in order";
const RECORD: &str = "a record is a map alone";

/// The rows that differ from serde by design, each with its reason.
const DIFFERENT: [(&str, &str, &str); 7] = [
    ("Same of Any", r#" {"a":1,"b":[null,{}],"a":-2} "#, EVERY),
    ("Same of Any", "340282366920938463463374607431768211455", WHOLE),
    ("Same of Any", "340282366920938463463374607431768211456", WHOLE),
    ("Same of Any", "-170141183460469231731687303715884105728", WHOLE),
    ("Same of Any", "[1,-0]", WHOLE),
    ("Same of Any", "[1e2]", WHOLE),
    (
        "PersonAs<Same, Same, Vec<DisplayFromStr>> of Person",
        r#"["Ann",41,[]]"#,
        RECORD,
    ),
];

/// Whether the answer is a JSON text; else it says why there is none.
fn is_text(answer: &str) -> bool {
    !["refused", "unwritable", "syntax", "not whole", "too deep"]
        .iter()
        .any(|word| answer.starts_with(word))
}

fn main() -> ExitCode {
    let (mut nest, mut same, mut known, mut wrong) = ("", 0, 0, 0);
    for line in STORED.lines() {
        let row = match line.strip_prefix('\t') {
            Some(row) => row,
            None => {
                nest = line.rsplit_once(": ").expect("a nest and what is said of it").0;
                continue;
            }
        };
        let (text, stored) = row.split_once('\t').expect("a text and its answer");
        let wanted = is_text(stored).then(|| stored.to_string());
        let found = nests::answer(nest, text);
        let reason = DIFFERENT.iter().find(|row| (row.0, row.1) == (nest, text));
        match (found == wanted, reason) {
            (true, None) => same += 1,
            (false, Some(_)) => known += 1,
            _ => {
                wrong += 1;
                println!("{nest}: {text}: stored {stored}, found {found:?}");
            }
        }
    }
    println!("{same} rows agree, {known} differ as is known, {wrong} are wrong");
    ExitCode::from(u8::from(wrong > 0))
}
