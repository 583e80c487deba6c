//! The tables of names, and definitions that are not written as the papers have them.

use glykorant_reference::generate::events;
use glykorant_reference::generate::{self, Case};
use glykorant_reference::modifiers::{Asked, ListedName, ModifierTest, ALL, CTRL, LOCK, SHIFT};
use glykorant_reference::names::*;
use glykorant_reference::random::Random;
use glykorant_reference::resolving::ROWS;
use glykorant_reference::Maps;

#[test]
fn no_name_stands_twice() {
    let modifiers = MODIFIERS.iter().map(|&(name, _)| name);
    let event_types = EVENT_TYPES.iter().map(|event_type| event_type.name);
    for names in [modifiers.collect::<Vec<_>>(), event_types.collect()] {
        for (at, name) in names.iter().enumerate() {
            assert!(!names[at + 1..].contains(name), "{name}");
        }
    }
}

#[test]
fn canonical_event_types_lead_in_the_order_of_their_codes() {
    for code in FIRST_CODE..=LAST_CODE {
        let event_type = EVENT_TYPES[usize::from(code - FIRST_CODE)];
        assert_eq!(event_type.code, code);
        assert_eq!(event_type.name, canonical_event_type(code));
    }
}

#[test]
fn canonical_modifiers_lead_and_then_their_short_forms() {
    let (of_bits, relatives) = MODIFIERS.split_at(BIT_MODIFIERS);
    for name in RELATIVES {
        let of_name = relatives
            .iter()
            .filter(|&&(_, m)| m == Modifier::Name(name));
        assert_eq!(of_name.count(), 2);
    }
    assert_eq!(relatives.len(), 2 * RELATIVES.len());
    let bit = |&(name, modifier)| match modifier {
        Modifier::Bit(bit) => bit,
        Modifier::Name(_) => panic!("{name}"),
    };
    let (canonical, short) = of_bits.split_at(CANONICAL_MODIFIERS);
    assert_eq!(canonical.iter().map(bit).fold(0, |all, bit| all ^ bit), ALL);
    assert_eq!(
        short.iter().map(bit).collect::<Vec<_>>(),
        [CTRL, SHIFT, LOCK]
    );
}

/// Number 8 is given exactly when "no 13-bit modifier state meets the event's test".
#[test]
fn can_hold_agrees_with_trying_all_states() {
    let mut random = Random::new(1, 1);
    let mut found = [0, 0];
    for _ in 0..1000 {
        let set = random.card16() & random.card16() & random.card16() & ALL;
        let kept = if random.percent(50) { !set } else { ALL };
        let test = Asked {
            set,
            clear: (random.card16() | random.card16()) & kept & ALL,
            clause: random.percent(50),
            never: false,
        };
        let expected = (0..=ALL).any(|state| test.holds(state));
        assert_eq!(test.can_hold(), expected, "{test:?}");
        found[usize::from(expected)] += 1;
    }
    assert!(found.iter().all(|&times| times > 100), "{found:?}");
}

/// R-1's sentences one by one, for one bit at a time.
fn meets_the_sentences(test: &ModifierTest, maps: Maps, state: u16) -> bool {
    let in_row = maps.modifiers.len() / ROWS;
    // "Every modifier bit with a keycode in its row whose pair as lent holds the named keysym
    // (left or right)."
    let means = |name: Name, bit: usize| {
        (0..in_row).any(|at| {
            let keycode = usize::from(maps.modifiers[bit * in_row + at]);
            keycode != 0
                && [0, 1].into_iter().any(|which| {
                    let held = maps.keyboard[2 * (keycode - 8) + which];
                    match name {
                        Name::Meta => held == 0xFFE7 || held == 0xFFE8,
                        Name::Alt => held == 0xFFE9 || held == 0xFFEA,
                        Name::Super => held == 0xFFEB || held == 0xFFEC,
                        Name::Hyper => held == 0xFFED || held == 0xFFEE,
                        Name::Keysym(keysym) => held == keysym,
                    }
                })
        })
    };
    let is_set = |bit: usize| state >> bit & 1 == 1;
    // "Beside a colon a resolved Shift or Lock isn't tested."
    let tested = |bit: usize| !(test.colon && bit < 2);
    let names_meet = test.names.iter().all(|listed| {
        let bits: Vec<usize> = (0..ROWS).filter(|&bit| means(listed.name, bit)).collect();
        match listed.negated {
            // "A listed name asks all its bits set." "A name with no bit, listed without `~`,
            // makes its event match nothing."
            false => !bits.is_empty() && bits.iter().all(|&bit| is_set(bit) || !tested(bit)),
            // "With `~`, all clear."
            true => bits.iter().all(|&bit| !is_set(bit) || !tested(bit)),
        }
    });
    let plain_meet = (0..13).all(|bit| {
        let asked_set = test.set >> bit & 1 == 1;
        let asked_clear = test.clear >> bit & 1 == 1;
        // "With `!`, the bits of a listed name count as listed."
        let by_name = |listed: &ListedName| bit < ROWS && means(listed.name, bit);
        let listed = asked_set || asked_clear || test.names.iter().any(by_name);
        let by_exclamation = test.exclamation && !listed && tested(bit);
        (!asked_set || is_set(bit)) && !((asked_clear || by_exclamation) && is_set(bit))
    });
    let clause_meets = !test.clause || (8..13).any(is_set);
    names_meet && plain_meet && clause_meets
}

#[test]
fn asked_agrees_with_the_sentences() {
    let mut random = Random::new(2, 2);
    let mut found = [0, 0];
    for number in 0..3000 {
        let Case::Match {
            old: None, text, ..
        } = generate::case(3, number)
        else {
            continue;
        };
        let table = generate::table(None, &text).unwrap();
        let list = events::list(&mut random, &table);
        let maps = list.maps();
        if maps.check().is_err() {
            continue;
        }
        for test in table.events().map(|spec| &spec.test) {
            let asked = maps.asked(test);
            for _ in 0..20 {
                let few = random.card16() & random.card16();
                let near = (asked.set | few) & !asked.clear & ALL;
                let state = *random.pick(&[near, near, few & ALL]);
                let expected = meets_the_sentences(test, maps, state);
                assert_eq!(asked.holds(state), expected, "{test:?} {maps:?} {state:#x}");
                found[usize::from(expected && test.has_names())] += 1;
            }
        }
    }
    assert!(found.iter().all(|&times| times > 10_000), "{found:?}");
}
