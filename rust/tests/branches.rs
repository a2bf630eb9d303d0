//! Branches leave the rows of the tree that is asked, and no others.
#![cfg(not(without_library))]
use mixegorta::*;

#[test]
fn a_tree_has_the_branches_of_its_own_rows() {
    let quotes = [Quote::YearlyRate(0.03); 3];
    let tree = Tree::fit(1, 3, 1_000, 0, &Curve::of_quotes(&quotes)).unwrap();
    for row in 0..tree.steps() {
        assert_eq!(tree.branches(row, 0), branches(1_000, row, 0));
    }
    assert_eq!(tree.branches(2, 3), Err(Refusal::LENGTH_OR_ROW));
    for row in [3, 4, 59, 60, 61, 1 << 32, (1 << 32) + 1, usize::MAX] {
        assert_eq!(tree.branches(row, 0), Err(Refusal::LENGTH_OR_ROW));
    }
    let today = Tree::fit(1, 1, 0, 0, &Curve::of_quotes(&quotes[..1])).unwrap();
    assert_eq!(today.branches(59, 59), Err(Refusal::LENGTH_OR_ROW));
}
