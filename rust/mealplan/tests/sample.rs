//! The crate on the sample plans: its values, lengths, places and refusals.
use mealplan::*;

/// The rules of document 01's sample plan with labels for 97, 98 and 99.
fn rules([a, b, c]: [Label; 3]) -> [Rule; 8] {
    [
        Rule::Empty,
        Rule::Node(a, 0),
        Rule::Node(b, 0),
        Rule::Pair(1, 2),
        Rule::Part(c, 3, 2),
        Rule::Join(4, 4),
        Rule::Fill(5, 1),
        Rule::Pair(6, 3),
    ]
}

/// The sample plans, with their format and rules.
fn samples() -> [(Vec<u8>, Format, [Rule; 8]); 2] {
    let read = |name| std::fs::read(format!("{}/../../samples/{name}", env!("CARGO_MANIFEST_DIR"))).expect(name);
    [
        (read("plan.bin"), Format::Narrow, rules([97, 98, 99])),
        (read("wide.bin"), Format::Wide, rules([65_535, 66_051, 16_777_215])),
    ]
}

#[test]
fn plans_are_what_their_bytes_say() {
    for (bytes, format, rules) in samples() {
        let plan = Plan::try_from(&bytes[..]).expect("the sample");
        assert_eq!((plan.n(), plan.start(), plan.format()), (8, 7, format));
        assert!(plan.rules().eq(rules) && plan.rules().len() == 8);
        assert_eq!(plan.rule(6), Some(Rule::Fill(5, 1)));
        assert_eq!((plan.rule(8), plan.rule(65_535)), (None, None));
        assert_eq!((plan.bytes(), plan.prefix()), (&bytes[..], &[][..]));
        assert_eq!(seal_rules(&rules, format, 7).as_ref(), Ok(&bytes));
        let covered = [b"a cover", &bytes[..]].concat();
        let plan = Plan::new(&covered).expect("a cover is no fault");
        assert!(plan.rules().eq(rules));
        assert_eq!(plan.prefix(), b"a cover");
    }
}

#[test]
fn rules_tell_what_they_name() {
    let named = |rule: Rule| (rule.named().collect::<Vec<u16>>(), rule.label(), rule.is_holed());
    assert_eq!(named(Rule::Empty), (vec![], None, false));
    assert_eq!(named(Rule::Node(5, 1)), (vec![1], Some(5), false));
    assert_eq!(named(Rule::Part(6, 3, 2)), (vec![3, 2], Some(6), true));
    assert_eq!(named(Rule::Join(4, 4)), (vec![4, 4], None, true));
    assert_eq!(named(Rule::Pair(1, 2)), (vec![1, 2], None, false));
}

#[test]
fn labels_that_a_format_has_not_are_refused_where_the_rule_is() {
    let sealed = |label, format| seal_rules(&[Rule::Empty, Rule::Empty, Rule::Node(label, 0)], format, 2);
    for (format, most) in [(Format::Narrow, 255), (Format::Wide, LAST_LABEL)] {
        assert_eq!(format.most_label(), most);
        assert!(sealed(most, format).is_ok());
        for label in [most + 1, 65_536 + most + 1, 1 << 24, u32::MAX] {
            assert_eq!(sealed(label, format), Err(Refusal::Malformed.at(2)));
        }
    }
    assert_eq!(seal_rules(&[], Format::Wide, 0), Err(Refusal::Count.at(0)));
    assert_eq!(seal_rules(&vec![Rule::Empty; MOST_RULES + 1], Format::Narrow, 0), Err(Refusal::Count.at(0)));
    assert!(seal_rules(&vec![Rule::Empty; MOST_RULES], Format::Narrow, 0).is_ok());
    assert_eq!(seal_rules(&vec![Rule::Empty; 70_000], Format::Narrow, 0), Err(Refusal::Count.at(0)));
}

#[test]
fn every_length_is_the_least_that_is_accepted() {
    for (bytes, format, _) in samples() {
        let n = 8;
        let (mut work, mut cursor) = (vec![0; work_bytes(n)], vec![0; cursor_bytes(n)]);
        let (mut answers, mut text) = ([0; answers_bytes(2)], vec![0; text_bytes(11, format).expect("it is small")]);
        let (mut words, mut plan) = (vec![0; words_bytes(n, format)], vec![0; plan_bytes(n, format)]);
        let mut out = vec![0; copy_bytes(n)];
        let rows = [LabelRow::new(0, LAST_LABEL, 0).weighing(65_535)];
        let less = |slice: &mut [u8]| slice.len() - 1;
        let lent = Err(Refusal::Lent.at(0));
        let room = Refusal::Room.at(0);

        let short = less(&mut work);
        assert_eq!(walk(&bytes, &mut work[..short], &mut cursor, b"af", &mut answers), lent);
        let short = less(&mut cursor);
        assert_eq!(walk(&bytes, &mut work, &mut cursor[..short], b"af", &mut answers), lent);
        let short = less(&mut answers);
        assert_eq!(walk(&bytes, &mut work, &mut cursor, b"af", &mut answers[..short]), lent);
        assert_eq!(walk(&bytes, &mut work, &mut cursor, b"af", &mut answers), Ok(()));
        let short = less(&mut text);
        assert_eq!(spread(&bytes, &mut work, &mut text[..short]), Err(room));
        assert_eq!(spread(&bytes, &mut work, &mut text), Ok(text.len() as u64));
        let short = less(&mut words);
        assert_eq!(unseal(&bytes, &mut words[..short]), Err(room));
        let unsealed = unseal(&bytes, &mut words).expect("a plan");
        assert_eq!(Format::from_record_length(unsealed.record_length), Some(format));
        let short = less(&mut plan);
        assert_eq!(seal(&words, format.record_length(), 7, &mut plan[..short]), Err(room));
        assert_eq!(seal(&words, format.record_length(), 7, &mut plan), Ok(bytes.len() as u64));
        assert_eq!(plan, bytes);
        let short = less(&mut out);
        assert_eq!(copy(&bytes, &rows, 0, &mut work, &mut out[..short]).map(|_| ()), lent);
        assert!(copy(&bytes, &rows, 0, &mut work, &mut out).is_ok());
        let short = less(&mut work);
        assert_eq!(grams(&bytes, &rows, &mut work[..short]).map(|_| ()), lent);
        assert_eq!(grams(&bytes, &rows, &mut work), Ok(11 * 65_535));
    }
    assert_eq!(text_bytes(u64::MAX, Format::Wide), None);
    assert_eq!(Format::from_record_length(9), None);
}

#[test]
fn a_walker_answers_as_document_01_says() {
    for (bytes, _, rules) in samples() {
        let [a, b, c] = [1, 2, 4].map(|rule: usize| rules[rule].label());
        let plan = Plan::new(&bytes).expect("the sample");
        let mut walker = plan.walker();
        let answers = walker.walk(b"afnnfnnnnununnn").expect("letters");
        assert_eq!(answers, [c, a, b, c, a, b, a, b, None, c, b, c, a, b, None]);
        assert_eq!((walker.label(), walker.cell_count()), (b, 3));
        walker.leave();
        assert_eq!((walker.label(), walker.cell_count(), walker.place()), (None, 0, Place::above()));
        for nowhere in [Walker::first_child, Walker::last_child, Walker::next_sibling, Walker::parent] {
            assert_eq!((nowhere(&mut walker), walker.label()), (None, None));
        }
        assert_eq!([walker.last_root(), walker.previous_sibling(), walker.previous_sibling()], [b, a, c]);
        assert_eq!([walker.last_child(), walker.previous_sibling(), walker.last_child()], [b, c, b]);
        assert_eq!([walker.parent(), walker.parent(), walker.parent(), walker.label()], [c, c, None, c]);
        assert_eq!(walker.walk(b""), Ok(vec![]));
        assert_eq!(walker.label(), c);
        assert_eq!(walker.plan(), plan);
    }
}

#[test]
fn places_have_document_01s_cells() {
    let [(bytes, ..), _] = samples();
    let mut walker = Plan::new(&bytes).expect("the sample").walker();
    assert_eq!((walker.place().to_string(), walker.place().is_empty()), (String::new(), true));
    walker.walk(b"afnnfnn").expect("letters");
    let place = walker.place();
    assert_eq!(place.to_string(), "(1, 0, 7, 0) (3, 7, 6, 0) (2, 6, 0, 0) (4, 5, 4, 0) (2, 1, 0, 0)");
    assert_eq!((place.len(), place.as_bytes().len(), place.cells().count()), (5, 48, 5));
    assert_eq!(format!("{walker:?}"), format!("Walker {{ place: {place}, label: Some(97) }}"));
}

#[test]
fn a_place_that_is_none_moves_nothing() {
    let [(bytes, ..), (wide, ..)] = samples();
    let mut walker = Plan::new(&bytes).expect("the sample").walker();
    walker.walk(b"afn").expect("letters");
    let kept = walker.place();
    let refused = Refusal::Place.at(0);
    let mut damaged =
        vec![vec![], vec![1], vec![0; 7], vec![1, 0], vec![255; 8], vec![255; 700_000], vec![0, 0, 0, 0, 1, 0, 0, 0]];
    for byte in 0..kept.as_bytes().len() {
        damaged.push(kept.to_bytes());
        damaged.last_mut().expect("one was pushed")[byte] ^= 1;
    }
    damaged.push(kept.as_bytes()[..kept.as_bytes().len() - 1].to_vec());
    for bytes in &damaged {
        let place = Place::from_bytes(bytes);
        assert_eq!(walker.go_to(&place), Err(refused), "{bytes:?}");
        assert_eq!(walker.compare(&place, 9), Err(refused));
        assert_eq!((walker.place(), walker.label()), (kept.clone(), Some(98)));
    }
    // What stands behind the used cells isn't looked at, and above the forest is a place to go to, but not to compare with.
    assert_eq!(walker.go_to(&Place::from_bytes(&[kept.as_bytes(), &[7; 9]].concat())), Ok(Some(98)));
    assert_eq!(walker.compare(&Place::default(), 9), Err(refused));
    assert_eq!(walker.go_to(&Place::default()), Ok(None));
    assert_eq!(walker.compare(&kept, 9), Err(refused));
    // A place of one plan is one of another where the rules are the same but for labels.
    assert_eq!(Plan::new(&wide).expect("the sample").walker().go_to(&kept), Ok(Some(66_051)));
}

#[test]
fn one_rule_alone() {
    for (bytes, _, rules) in samples() {
        let [a, b, c] = [1, 2, 4].map(|rule: usize| rules[rule].label());
        let plan = Plan::new(&bytes).expect("the sample");
        let refused = Refusal::Place.at(0);
        for (rule, answers) in
            [(0, [None; 4]), (1, [a, None, None, None]), (3, [a, b, None, None]), (6, [c, None, None, a])]
        {
            let mut walker = plan.walker_of(rule).expect("a closed rule");
            assert_eq!((walker.rule(), walker.label(), walker.cell_count()), (rule, None, 0));
            assert_eq!(walker.walk(b"annf"), Ok(answers.to_vec()), "rule {rule}");
            assert_eq!((walker.rule(), walker.walk(b"x")), (rule, Err(Refusal::Letter.at(0))));
            walker.leave();
            assert_eq!((walker.rule(), walker.label(), walker.place()), (rule, None, Place::above_rule(rule)));
            assert_eq!(walker.first_root(), answers[0], "above the same rule's forest");
            assert_eq!(walker.place().rule(), Some(rule));
        }
        for rule in [4, 5, 8, 9, 65_534, 65_535] {
            assert_eq!(plan.walker_of(rule).map(|walker| walker.rule()), Err(refused), "rule {rule}");
            assert_eq!(plan.walker().go_to(&Place::above_rule(rule)), Err(refused));
        }
        // The start by number: the same answers and cells, and another word.
        let (mut start, mut named) = (plan.walker(), plan.walker_of(7).expect("the start is closed"));
        assert_eq!((start.rule(), start.place().rule(), named.rule(), named.place().rule()), (7, None, 7, Some(7)));
        assert_eq!(start.walk(b"afnnfnn"), named.walk(b"afnnfnn"));
        assert!(start.place().cells().eq(named.place().cells()) && start.place() != named.place());
        assert_eq!(named.compare(&start.place(), 9), Ok(Compared::Same(1)));
        // A walker goes to a place of any rule, and walks on there.
        let mut day = plan.walker_of(3).expect("a closed rule");
        day.walk(b"an").expect("letters");
        assert_eq!((start.go_to(&day.place()), start.rule()), (Ok(b), 3));
        assert_eq!(
            (start.next_sibling(), start.previous_sibling(), start.place()),
            (None, a, {
                day.previous_sibling();
                day.place()
            })
        );
        assert_eq!(start.compare(&named.place(), 9), Ok(Compared::Same(1)), "a leaf of rule 3 and one of the start");
        assert_eq!((start.go_to(&Place::above()), start.rule(), start.first_root()), (Ok(None), 7, c));
        // A place of one rule isn't one of another.
        let mut other = day.place().to_bytes();
        other[2] = 0;
        assert_eq!((start.go_to(&Place::from_bytes(&other)), start.rule()), (Err(refused), 7));
        assert_eq!(format!("{day:?}"), format!("Walker {{ place: {}, label: {a:?} }}", day.place()));
    }
}

#[test]
fn reasons_on_the_samples() {
    use Reason::{Above, FirstSibling, LastSibling, Moves, NoChildren, NoTrees, Root};
    for (bytes, ..) in samples() {
        let plan = Plan::new(&bytes).expect("the sample");
        // The reasons of a z f l n p u s behind these keys, in the forest of the start or of a rule.
        for (rule, keys, expected) in [
            (None, "", [Moves, Moves, Above, Above, Above, Above, Above, Above]),
            (None, "a", [Moves, Moves, Moves, Moves, Moves, FirstSibling, Root, Moves]),
            (None, "z", [Moves, Moves, NoChildren, NoChildren, LastSibling, Moves, Root, Moves]),
            (None, "afnn", [Moves; 8]),
            (None, "al", [Moves, Moves, NoChildren, NoChildren, LastSibling, Moves, Moves, Moves]),
            (Some(6), "a", [Moves, Moves, Moves, Moves, LastSibling, FirstSibling, Root, Moves]),
            (Some(0), "", [NoTrees; 8]),
        ] {
            let mut walker = rule.map_or(plan.walker(), |rule| plan.walker_of(rule).expect("a closed rule"));
            walker.walk(keys.as_bytes()).expect("letters");
            let (place, label) = (walker.place(), walker.label());
            assert_eq!(b"azflnpus".map(|letter| walker.why(letter)), expected.map(Ok), "{keys}");
            assert_eq!((walker.place(), walker.label()), (place, label), "nothing moves");
            for (letter, reason) in b"azflnpus".iter().zip(expected) {
                let moved = walker.clone().walk(&[*letter]).expect("a letter");
                assert_eq!(moved[0].is_some(), reason.moves(), "0 exactly where a walk doesn't say nowhere");
            }
        }
        // Refused as a walk of that letter is: check, 8, 9 at 0, 10.
        let (mut work, above) = (vec![7; work_bytes(8)], vec![0; cursor_bytes(8)]);
        assert_eq!(reason(&bytes[1..], &mut [], &[], b'x'), Err(Refusal::Distance.at(0)));
        assert_eq!(reason(&bytes, &mut work[1..], &above, b'x'), Err(Refusal::Lent.at(0)));
        assert_eq!(reason(&bytes, &mut work, &above[1..], b'x'), Err(Refusal::Lent.at(0)));
        assert!(work.iter().all(|byte| *byte == 7));
        let mut no_place = above.clone();
        no_place[0] = 1;
        assert_eq!(reason(&bytes, &mut work, &no_place, b'x'), Err(Refusal::Letter.at(0)));
        assert!(work.iter().all(|byte| *byte == 0), "past 8 work is zeros");
        assert_eq!(reason(&bytes, &mut work, &no_place, b'n'), Err(Refusal::Place.at(0)));
        assert_eq!(reason(&bytes, &mut work, &above, b'n'), Ok(Above));
    }
}

#[test]
fn texts_and_copies_of_the_samples() {
    let rows = [LabelRow::new(0, 97, 0), LabelRow::new(98, 98, 2), LabelRow::new(99, LAST_LABEL, 1)];
    let classes = Classes::try_from(&rows[..]).expect("a sound list");
    assert_eq!(
        (classes.class_of(LAST_LABEL), classes.class_of(LAST_LABEL + 1)),
        (Ok(1), Err(Refusal::Malformed.at(0)))
    );
    assert_eq!(classes.rows(), rows);
    let [(bytes, ..), (wide, ..)] = samples();
    let plan = Plan::new(&bytes).expect("the sample");
    assert_eq!(plan.spread(33).as_deref(), Ok(&b"(c(a)(b)(c(a)(b)(a)(b))(b))(a)(b)"[..]));
    assert_eq!(Plan::new(&wide).and_then(|wide| wide.spread(54)), Err(Refusal::Room.at(0)));
    let nodes = |class| plan.copy(classes, class).and_then(|copy| Plan::new(&copy)?.nodes());
    assert_eq!([0, 1, 2, 3].map(nodes), [Ok(1), Ok(6), Ok(11), Ok(11)]);
    assert_eq!(nodes(4), Err(Refusal::Row.at(0)));
}

#[test]
fn dividers_of_the_sample() {
    for format in [Format::Narrow, Format::Wide] {
        for (labels, entries) in
            [([97, DIVIDER, 99], 6), ([DIVIDER, 98, 99], 7), ([97, 98, DIVIDER], 9), ([DIVIDER; 3], 0)]
        {
            let bytes = seal_rules(&rules(labels), format, 7).expect("the sample");
            let plan = Plan::new(&bytes).expect("it was sealed");
            assert_eq!(plan.measure(), Ok(Measured { trees: 3, entries, levels: 3 }));
            assert_eq!(plan.nodes(), Ok(11));
            let length = text_bytes(11, format).expect("it is small");
            assert_eq!(plan.spread(length).map(|text| text.len()), Ok(length), "bytes for every node");
            assert_eq!(plan.spread(length - 1), Err(Refusal::Room.at(0)));
            assert_eq!(plan.walker().walk(b"afn"), Ok([2, 0, 1].map(|label| Some(labels[label])).to_vec()));
        }
    }
    let rules = [Rule::Empty, Rule::Node(DIVIDER, 0), Rule::Node(65_536, 0), Rule::Pair(1, 2)];
    let bytes = seal_rules(&rules, Format::Wide, 3).expect("a plan");
    let size = Plan::new(&bytes).and_then(Plan::measure);
    assert_eq!(size, Ok(Measured { trees: 2, entries: 1, levels: 1 }), "label 0 is the whole label");
}

#[test]
fn grams_of_the_samples() {
    let [(bytes, ..), (wide, ..)] = samples();
    let [plan, wide] = [&bytes, &wide].map(|bytes| Plan::new(bytes).expect("the sample"));
    assert_eq!([plan, wide].map(Plan::nodes), [Ok(11), Ok(11)]);
    let all = [LabelRow::new(0, LAST_LABEL, 3).weighing(65_535)];
    let rows = [
        LabelRow::new(0, 97, 0).weighing(120),
        LabelRow::new(98, 98, 2).weighing(30),
        LabelRow::new(99, LAST_LABEL, 1).weighing(250),
    ];
    let [all, by_label] = [&all[..], &rows].map(|rows| Classes::new(rows).expect("a sound list"));
    assert_eq!([plan, wide].map(|plan| plan.grams(all)), [Ok(720_885), Ok(720_885)]);
    assert_eq!([plan, wide].map(|plan| plan.grams(by_label)), [Ok(1_130), Ok(2_750)]);
    for (class, seen) in [(0, 120), (1, 980), (2, 1_130), (3, 1_130)] {
        let copy = plan.copy(by_label, class).expect("a copy");
        assert_eq!(Plan::new(&copy).and_then(|copy| copy.grams(by_label)), Ok(seen));
    }
    // The list before work, the plan before the list.
    assert_eq!(grams(&bytes, &rows[..2], &mut []), Err(Refusal::Gap.at(2)));
    assert_eq!(grams(&bytes, &rows, &mut []), Err(Refusal::Lent.at(0)));
    assert_eq!(grams(&bytes[1..], &rows[1..], &mut []), Err(Refusal::Distance.at(0)));
    // A row that says nothing of grams weighs nothing.
    let light = [LabelRow::new(0, LAST_LABEL, 0)];
    assert_eq!(plan.grams(Classes::new(&light).expect("a sound list")), Ok(0));
}

#[test]
fn a_forest_that_nobody_unfolds() {
    // A row doubled 900 times.
    let mut rules = vec![Rule::Empty, Rule::Node(97, 0)];
    rules.extend((1..=900).map(|row| Rule::Pair(row, row)));
    let bytes = seal_rules(&rules, Format::Narrow, 901).expect("a plan");
    let plan = Plan::new(&bytes).expect("it was sealed");
    assert_eq!((plan.measure(), plan.spread(usize::MAX)), (Err(Refusal::Room.at(0)), Err(Refusal::Room.at(0))));
    assert_eq!(plan.nodes(), Err(Refusal::Room.at(0)));
    let rows = [LabelRow::new(0, 97, 0), LabelRow::new(98, LAST_LABEL, 0).weighing(1)];
    assert_eq!(plan.grams(Classes::new(&rows).expect("a sound list")), Ok(0), "11 looks at the grams alone");
    let mut walker = plan.walker();
    assert_eq!([walker.last_root(), walker.next_sibling(), walker.previous_sibling()], [Some(97), None, Some(97)]);
}

#[test]
fn refusals_in_words() {
    for (i, refusal) in Refusal::ALL.into_iter().enumerate() {
        assert_eq!(refusal.number(), i as u32 + 1);
        let refused = refusal.at(41);
        assert_eq!(refused.refusal(), Some(refusal));
        let text = refused.to_string();
        assert!(text.starts_with(&format!("refused {} at 41: ", i + 1)) && text.len() > 44, "{text}");
        let tells = text.matches("41").count() == 2;
        assert_eq!(tells, [4, 5, 6, 9, 12, 13, 14, 15].contains(&refused.number), "{text}");
    }
    let other = Refused { number: 17, position: 0 };
    assert_eq!((other.refusal(), other.to_string()), (None, "refused 17 at 0: no such refusal".into()));
    let boxed: Box<dyn std::error::Error + Send + Sync> = Box::new(Refusal::Cycle.at(3));
    assert_eq!(boxed.to_string(), "refused 12 at 3: rule 3 reaches itself through the rules it names");
}
