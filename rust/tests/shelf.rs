//! Requests (vii) and (viii) of document 02, through the safe type: which calls are accepted, which cause comes first, what a call leaves as it
//! was, that a shelved tree is the tree that a fit of its own gives, and what it carries.
#![cfg(not(without_library))]
use mixegorta::*;

fn falling(part: f64, steps: usize) -> Curve {
    let quotes: Vec<Quote> = (1..=steps)
        .map(|row| Quote::DiscountFactor(part.powi(row as i32)))
        .collect();
    Curve::of_quotes(&quotes)
}

const CALL: OptionTerms = OptionTerms {
    kind: OptionKind::AmericanCall,
    expiry: 1,
    strike: ONE,
};
const DATED: DatedTerms = DatedTerms {
    side: Side::Put,
    dates: &[0, 1],
    strike: ONE,
};

/// What can be seen of a name: its tree, what it carries, and its discounts.
type Seen = (Option<ShelvedTree>, Option<TreeErrorBounds>, Vec<u64>);

fn seen(shelf: &Shelf) -> Vec<Seen> {
    (1..=MAX_NAME)
        .map(|name| {
            let discounts = shelf.discounts(name).to_vec();
            (shelf.tree(name), shelf.bounds(name), discounts)
        })
        .collect()
}

const NOTHING: TreeErrorBounds = TreeErrorBounds {
    bound: 0,
    greatest: [0; MAX_STEPS],
};

/// What a tree must carry: of a fitted one what its discounts give, else zeros.
fn carries_its_own((tree, carried, discounts): &Seen) -> bool {
    *carried
        == tree.map(
            |tree| match tree_bounds(tree.steps, tree.reversion, discounts) {
                Ok(known) if tree.fitted => known,
                _ => NOTHING,
            },
        )
}

/// A call that must leave every other name as it was and, where it is refused, its own too.
fn called(
    shelf: &mut Shelf,
    name: usize,
    call: impl FnOnce(&mut Shelf) -> Result<(), Refusal>,
) -> Result<(), Refusal> {
    let before = seen(shelf);
    let answer = call(shelf);
    for (index, (old, new)) in before.iter().zip(seen(shelf)).enumerate() {
        if answer.is_err() || index + 1 != name {
            assert_eq!(*old, new, "name {} after a call on {name}", index + 1);
        }
        assert!(carries_its_own(&new), "name {} after {name}", index + 1);
    }
    answer
}

/// A shelf with a fitted tree of two steps under 2, and one of two steps that awaits its commit under 5.
fn desk() -> Shelf {
    let mut shelf = Shelf::new();
    shelf.ask(2, 2, 0).unwrap();
    shelf.ask(5, 2, 0).unwrap();
    shelf.commit(2, 1, 10_000, &falling(0.97, 2)).unwrap();
    shelf
}

#[test]
fn the_empty_shelf_has_nothing() {
    let shelf = Shelf::new();
    assert_eq!(seen(&shelf), vec![(None, None, Vec::new()); MAX_NAME]);
    assert_eq!(shelf.nodes_held(), 0);
    for name in [0, MAX_NAME + 1, (1 << 32) + 2, usize::MAX] {
        assert_eq!((shelf.tree(name), shelf.discounts(name)), (None, &[][..]));
        assert_eq!(shelf.bounds(name), None);
    }
}

#[test]
fn causes_of_an_asking_in_their_order() {
    let mut shelf = desk();
    for name in [0, 2, 5, 9, 258, 65_538, (1 << 32) + 3, usize::MAX] {
        let refused = called(&mut shelf, name, |shelf| shelf.ask(name, 61, 6_001));
        assert_eq!(refused, Err(Refusal::NAME), "{name}");
    }
    for (steps, reversion, cause) in [
        (0, 6_001, Refusal::STEPS),
        (61, 6_001, Refusal::STEPS),
        (60, 6_001, Refusal::REVERSION),
        (60, 0, Refusal::NODES),
    ] {
        let refused = called(&mut shelf, 1, |shelf| shelf.ask(1, steps, reversion));
        assert_eq!(refused, Err(cause), "{steps} {reversion}");
    }
    assert_eq!(shelf.nodes_held(), 8);
}

#[test]
fn causes_of_a_commit_in_their_order() {
    let mut shelf = desk();
    shelf.ask(1, 13, 0).unwrap();
    let with = |figure: f64| {
        let mut quotes = vec![Quote::DiscountFactor(0.97); 13];
        quotes[4] = Quote::DiscountFactor(figure);
        Curve::of_quotes(&quotes)
    };
    let (mistyped, out_of_line, short) = (with(97.0), with(1.5), falling(97.0, 12));
    for name in [0, 2, 3, 9, 257] {
        let refused = called(&mut shelf, name, |shelf| {
            shelf.commit(name, 3, 50_001, &mistyped)
        });
        assert_eq!(refused, Err(Refusal::NAME), "{name}");
    }
    for (frequency, volatility, curve, cause) in [
        (3, 50_001, &short, Refusal::FREQUENCY),
        (1, 50_001, &short, Refusal::VOLATILITY),
        (1, 50_000, &short, Refusal::LENGTH_OR_ROW),
        (1, 50_000, &mistyped, Refusal::QUOTE),
        (1, 50_000, &out_of_line, Refusal::SPACING),
        (1, 10_000, &out_of_line, Refusal::DISCOUNT),
    ] {
        let refused = called(&mut shelf, 1, |shelf| {
            shelf.commit(1, frequency, volatility, curve)
        });
        assert_eq!(refused, Err(cause));
        assert!(shelf.discounts(1).iter().all(|&discount| discount == 0));
    }
    let again = called(&mut shelf, 1, |shelf| {
        shelf.commit(1, 1, 1_000, &falling(0.97, 13))
    });
    assert_eq!(again, Ok(()));
    assert!(shelf.tree(1).unwrap().fitted);
}

#[test]
fn a_fitted_tree_takes_no_second_commit() {
    let mut shelf = desk();
    let other = falling(0.95, 2);
    let twice = called(&mut shelf, 2, |shelf| shelf.commit(2, 1, 10_000, &other));
    assert_eq!(twice, Err(Refusal::NAME));
    called(&mut shelf, 2, |shelf| shelf.release(2)).unwrap();
    let absent = called(&mut shelf, 2, |shelf| shelf.commit(2, 1, 10_000, &other));
    assert_eq!(absent, Err(Refusal::NAME));
    called(&mut shelf, 2, |shelf| shelf.ask(2, 2, 0)).unwrap();
    called(&mut shelf, 2, |shelf| shelf.commit(2, 1, 10_000, &other)).unwrap();
    let alone = Tree::fit(1, 2, 0, 10_000, &other).unwrap();
    assert_eq!(shelf.discounts(2), alone.discounts());
}

#[test]
fn causes_of_a_price_in_their_order() {
    let shelf = desk();
    let (long, large) = ([0, 0, 3 * ONE], [0, 3 * ONE]);
    for name in [0, 1, 3, 9, 258, (1 << 32) + 2] {
        assert_eq!(shelf.bond_price(name, &long), Err(Refusal::NAME));
        assert_eq!(shelf.option_price(name, &long, CALL), Err(Refusal::NAME));
        let dated = shelf.dated_option_price(name, &long, DATED);
        assert_eq!(dated, Err(Refusal::NAME));
    }
    for (name, flows, cause) in [
        (5, &long[..], Refusal::LENGTH_OR_ROW),
        (5, &large[..], Refusal::DISCOUNT),
        (2, &long[..], Refusal::LENGTH_OR_ROW),
        (2, &large[..], Refusal::FLOW),
    ] {
        assert_eq!(shelf.bond_price(name, flows), Err(cause));
        assert_eq!(shelf.option_price(name, flows, CALL), Err(cause));
        assert_eq!(shelf.dated_option_price(name, flows, DATED), Err(cause));
        let both = shelf.bond_and_option(name, flows, CALL);
        assert_eq!((both.bond, both.option), (Err(cause), Err(cause)));
        let both = shelf.bond_and_dated_option(name, flows, DATED);
        assert_eq!((both.bond, both.option), (Err(cause), Err(cause)));
    }
    let bad_dates = |strike| DatedTerms {
        dates: &[1, 1],
        strike,
        ..DATED
    };
    let refused = |strike| shelf.dated_option_price(2, &[0, ONE], bad_dates(strike));
    assert_eq!(refused(5 * ONE), Err(Refusal::OPTION));
    assert_eq!(refused(ONE), Err(Refusal::DATES));
}

#[test]
fn a_tree_carries_its_bounds_from_commit_to_release() {
    let mut shelf = desk();
    shelf.ask(1, 12, 700).unwrap();
    assert_eq!(shelf.bounds(1), Some(NOTHING));
    let mut quotes = vec![Quote::DiscountFactor(1.01); 12];
    quotes[5] = Quote::DiscountFactor(1.6);
    let refused = called(&mut shelf, 1, |shelf| {
        shelf.commit(1, 1, 8_000, &Curve::of_quotes(&quotes))
    });
    assert_eq!(refused, Err(Refusal::DISCOUNT));
    assert_eq!(shelf.bounds(1), Some(NOTHING));
    let rising = falling(1.01, 12);
    called(&mut shelf, 1, |shelf| shelf.commit(1, 1, 8_000, &rising)).unwrap();
    let alone = Tree::fit(1, 12, 700, 8_000, &rising).unwrap();
    let carried = shelf.bounds(1).unwrap();
    assert_eq!(Ok(carried), alone.bounds());
    assert_eq!(Ok(carried.bound), alone.price_error_bound());
    assert_eq!(
        Ok(carried.bound),
        shelf.bond_price(1, &[0; 12]).map(|price| price.bound)
    );
    assert!(carried.bound > 2 * 12 && carried.greatest[0] == 1_010_000_000);
    assert_eq!(carried.greatest[12..], [0; 48]);
    called(&mut shelf, 1, |shelf| shelf.release(1)).unwrap();
    assert_eq!(shelf.bounds(1), None);
    called(&mut shelf, 1, |shelf| shelf.ask(1, 3, 0)).unwrap();
    assert_eq!(shelf.bounds(1), Some(NOTHING));
    called(&mut shelf, 1, |shelf| {
        shelf.commit(1, 1, 0, &falling(0.97, 3))
    })
    .unwrap();
    assert_eq!(shelf.bounds(1).map(|carried| carried.bound), Some(6));
}

#[test]
fn exactly_3600_nodes_fit() {
    let mut shelf = Shelf::new();
    shelf.ask(8, 60, 0).unwrap();
    assert_eq!(shelf.nodes_held(), 3_600);
    for name in 1..8 {
        assert_eq!(shelf.ask(name, 1, 0), Err(Refusal::NODES));
    }
    shelf.release(8).unwrap();
    for (name, steps) in [(3, 48), (1, 36)] {
        called(&mut shelf, name, |shelf| shelf.ask(name, steps, 0)).unwrap();
    }
    assert_eq!(shelf.nodes_held(), 48 * 48 + 36 * 36);
    assert_eq!(shelf.nodes_held(), SHELF_ROOM);
    assert_eq!(shelf.ask(2, 1, 6_000), Err(Refusal::NODES));
    shelf.release(1).unwrap();
    assert_eq!(shelf.ask(1, 37, 0), Err(Refusal::NODES));
    shelf.ask(2, 36, 0).unwrap();
}

/// Nodes that are given back at three places serve one asking, and the trees between them keep their discounts.
#[test]
fn released_nodes_serve_wherever_they_were() {
    let mut shelf = Shelf::new();
    for name in 1..=MAX_NAME {
        called(&mut shelf, name, |shelf| shelf.ask(name, 21, 0)).unwrap();
        let curve = falling(0.99 - 0.001 * name as f64, 21);
        called(&mut shelf, name, |shelf| {
            shelf.commit(name, 4, 5_000, &curve)
        })
        .unwrap();
    }
    assert_eq!(shelf.nodes_held(), 8 * 441);
    for name in [2, 5, 8] {
        called(&mut shelf, name, |shelf| shelf.release(name)).unwrap();
        assert_eq!(shelf.release(name), Err(Refusal::NAME));
    }
    assert_eq!(shelf.nodes_held(), 5 * 441);
    called(&mut shelf, 5, |shelf| shelf.ask(5, 37, 0)).unwrap();
    assert_eq!(shelf.nodes_held(), 5 * 441 + 37 * 37);
    assert_eq!(shelf.discounts(5), vec![0; 37 * 37]);
    for name in [1, 3, 4, 6, 7] {
        let curve = falling(0.99 - 0.001 * name as f64, 21);
        let alone = Tree::fit(4, 21, 0, 5_000, &curve).unwrap();
        assert_eq!(shelf.discounts(name), alone.discounts());
    }
}

#[test]
fn prices_are_those_of_the_tree_alone() {
    let mut shelf = desk();
    let curve = falling(0.985, 12);
    shelf.ask(3, 12, 700).unwrap();
    shelf.commit(3, 2, 8_000, &curve).unwrap();
    shelf.release(2).unwrap();
    let alone = Tree::fit(2, 12, 700, 8_000, &curve).unwrap();
    let copied = shelf.discounts(3).to_vec();
    assert_eq!(copied, alone.discounts());
    let mut flows = vec![20_000_000; 12];
    flows[11] += ONE;
    let call = OptionTerms { expiry: 9, ..CALL };
    let before = seen(&shelf);
    assert_eq!(
        shelf.bond_price(3, &flows),
        bond_price(12, 700, &copied, &flows)
    );
    assert_eq!(
        shelf.option_price(3, &flows, call),
        alone.option_price(&flows, call)
    );
    assert_eq!(
        shelf.bond_and_option(3, &flows, call),
        alone.bond_and_option(&flows, call)
    );
    assert_eq!(
        shelf.dated_option_price(3, &flows, DATED),
        alone.dated_option_price(&flows, DATED)
    );
    assert_eq!(
        shelf.bond_and_dated_option(3, &flows, DATED),
        alone.bond_and_dated_option(&flows, DATED)
    );
    assert!(shelf.option_price(3, &flows, call).is_ok());
    assert_eq!(seen(&shelf), before);
}

#[test]
fn a_copy_goes_its_own_way() {
    let mut shelf = desk();
    let mut other = shelf.clone();
    other.release(2).unwrap();
    shelf.commit(5, 1, 0, &falling(0.97, 2)).unwrap();
    assert!(shelf.tree(2).is_some() && other.tree(2).is_none());
    assert!(shelf.tree(5).unwrap().fitted && !other.tree(5).unwrap().fitted);
    assert_eq!(other.discounts(5), [0; 4]);
    assert_eq!(
        format!("{other:?}"),
        "Shelf {5: ShelvedTree { steps: 2, reversion: 0, fitted: false }}"
    );
    assert_eq!(format!("{:?}", Shelf::default()), "Shelf {}");
}
