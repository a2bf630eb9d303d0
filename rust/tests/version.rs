//! What the crate and its archive say of themselves.
#![cfg(not(without_library))]
use mixegorta::*;

#[test]
fn the_archive_is_of_this_version() {
    let version = archive_version();
    let parts = [
        version / 1_000_000,
        version / 1_000 % 1_000,
        version % 1_000,
    ];
    assert_eq!(parts.map(|part| part.to_string()).join("."), VERSION);
}

#[test]
fn refusals_are_listed_by_number() {
    let numbers: Vec<u64> = Refusal::LISTED
        .iter()
        .map(|refusal| refusal.number())
        .collect();
    assert_eq!(numbers, (1..=numbers.len() as u64).collect::<Vec<_>>());
    assert_eq!(half_width(MAX_REVERSION + 1, 0), Err(Refusal::LISTED[3]));
}
