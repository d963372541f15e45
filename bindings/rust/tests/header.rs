//! What stands here and in include/locator.h is the same: version, limits, calls, and each refusal's number and reason.
use locator::{Field, Refusal};

fn header() -> String {
    let path = concat!(env!("CARGO_MANIFEST_DIR"), "/../../include/locator.h");
    std::fs::read_to_string(path).expect("include/locator.h")
}

/// The word behind `#define NAME`.
fn defined(header: &str, name: &str) -> String {
    let line = format!("#define {name} ");
    let found = header.lines().find_map(|one| one.strip_prefix(&line));
    found.expect(name).trim_matches('"').to_string()
}

#[test]
fn limits() {
    let header = header();
    assert_eq!(defined(&header, "LOCATOR_VERSION"), locator::VERSION);
    let limits = [
        ("SLOTS", locator::SLOTS),
        ("STORED_SLOTS", locator::STORED_SLOTS),
        ("ROOTS", locator::ROOTS),
        ("COEFFICIENTS", locator::COEFFICIENTS),
        ("ELEMENTS", locator::ELEMENTS),
        ("WORD", locator::WORD),
        ("RECORD", locator::RECORD),
    ];
    for (name, value) in limits {
        assert_eq!(
            defined(&header, &format!("LOCATOR_{name}")),
            value.to_string(),
            "{name}"
        );
    }
}

#[test]
fn refusals() {
    let header = header();
    let named = |number: u16| {
        let line = format!(" = {number},");
        let last = format!(" = {number}");
        let found = header
            .lines()
            .find(|one| one.ends_with(&line) || one.ends_with(&last));
        found
            .and_then(|one| one.split_whitespace().next())
            .map(str::to_string)
    };
    let mut seen = 0;
    for refusal in (1..64).filter_map(Refusal::from_number) {
        let number = refusal.number();
        seen += 1;
        let name = named(number).expect("a name in the header");
        let case = format!("case {name}: return \"{}\";", refusal.reason());
        assert!(header.contains(&case), "{case}");
        assert_eq!(
            refusal.to_string(),
            format!("{} ({number})", refusal.reason())
        );
        let error: Box<dyn std::error::Error> = Box::new(refusal);
        assert!(error.downcast_ref::<Refusal>().is_some());
    }
    assert_eq!(seen, 16);
}

#[test]
fn calls() {
    let (header, face) = (header(), include_str!("../src/face.rs"));
    let declared = header
        .lines()
        .filter(|one| one.starts_with("locator_") || one.starts_with("uint16_t "))
        .filter_map(|one| one.split(' ').nth(1)?.split_once('('))
        .map(|(name, _)| name);
    for name in declared.clone() {
        assert!(face.contains(&format!("fn {name}(")), "{name}");
    }
    assert!(declared.count() > 10);
}

#[test]
fn fields() {
    for m in 0..100 {
        match Field::try_from(m) {
            Ok(field) => assert_eq!((u16::from(field), field.product(1, 1)), (m, Ok(1))),
            Err(refusal) => assert_eq!(
                (refusal, locator::product(m, 0, 0)),
                (Refusal::Field, Err(Refusal::Field))
            ),
        }
    }
}
