//! Grams (document 02, Note 8), in both formats: the sample plan, sums on both sides of 2^64 − 1, forests of more nodes than that, and refusals in
//! their order. Those of plans at random are beside their copies.
use reference::copy::Client;
use reference::plan::{self, Rule, SAMPLE, WORDS, work_bytes};
use reference::rows::{LAST_LABEL, Row};
use reference::unfolded::Unfolded;
use reference::{Format, Refused, Why, rules};

fn plan_of(format: Format, rules: &[Rule], start: u16) -> Vec<u8> {
    let records: Vec<[u16; WORDS]> = rules.iter().map(|rule| rule.words()).collect();
    let words = records.iter().flat_map(|record| &record[..format.words()]);
    let mut plan: Vec<u8> = words.flat_map(|word| word.to_le_bytes()).collect();
    plan.extend(plan::trailer(format, rules.len(), start));
    plan
}

const fn row(lowest: u32, highest: u32, class: u16, grams: u16) -> Row {
    Row { lowest, highest, class, grams }
}

/// 120 grams of class 0, 30 of class 2 and 250 of class 1.
const LIST: [Row; 3] = [row(0, 97, 0, 120), row(98, 98, 2, 30), row(99, LAST_LABEL, 1, 250)];

/// The grams by rules, with just enough work.
fn grams(plan: &[u8], list: &[Row], n: usize) -> Result<u64, Refused> {
    let mut work = vec![7; work_bytes(n)];
    let grams = rules::grams(plan, list, &mut work);
    assert!(work.iter().all(|byte| *byte == 0), "past 8 work is zeros");
    grams
}

#[test]
fn the_sample_plan() {
    for format in Format::BOTH {
        let plan = plan_of(format, &SAMPLE, 7);
        let unfolded = Unfolded::of(&plan, 11).expect("eleven nodes");
        for (list, expected) in [
            (&LIST[..], 4 * 120 + 5 * 30 + 2 * 250),
            (&[row(0, LAST_LABEL, 3, 1)], 11),
            (&[row(0, LAST_LABEL, 0, 0)], 0),
            (&[row(0, 98, 0, 0), row(99, 99, 3, 65_535), row(100, LAST_LABEL, 0, 7)], 131_070),
        ] {
            assert_eq!(grams(&plan, list, 8), Ok(expected));
            assert_eq!(unfolded.grams(list, &mut vec![7; work_bytes(8)]), Ok(expected));
        }
        for (class, out) in [(0, 1_010), (1, 150), (2, 0), (3, 0)] {
            let client = Client { rows: LIST.to_vec(), class };
            assert_eq!(rules::taken_out(&plan, &client), Ok(Some(out)));
        }
    }
}

/// A row of 2^doublings leaves with a label, over an empty rule.
fn doubled(label: u32, doublings: u16) -> Vec<Rule> {
    let mut rules = vec![Rule::Empty, Rule::Node(label, 0)];
    rules.extend((1..=doublings).map(|row| Rule::Pair(row, row)));
    rules
}

#[test]
fn sums_at_the_limit() {
    // 2^48 + 2^32 + 2^16 + 1 leaves of 65,535 grams are 2^64 − 1; a leaf more, of any grams, is more.
    let mut rules = doubled(97, 48);
    let last = rules.len() as u16;
    rules.extend([Rule::Pair(49, 33), Rule::Pair(17, 1), Rule::Pair(last, last + 1), Rule::Node(98, 0)]);
    let exact = last + 2;
    rules.push(Rule::Pair(exact, exact + 1));
    let n = rules.len();
    let list = |other| [row(0, 97, 0, 65_535), row(98, LAST_LABEL, 0, other)];
    for format in Format::BOTH {
        let [within, above] = [exact, exact + 2].map(|start| plan_of(format, &rules, start));
        for other in [0, 1, 65_535] {
            assert_eq!(grams(&within, &list(other), n), Ok(u64::MAX), "a rule of more that nothing names");
            let expected = if other == 0 { Ok(u64::MAX) } else { Err(Why::Output.here()) };
            assert_eq!(grams(&above, &list(other), n), expected);
        }
        // The limit is that of grams: of 2^70 nodes, and of 2^900 below another, it is the grams that are looked at.
        for (doublings, own) in [(70, 0), (900, 0), (70, 1), (900, 65_535)] {
            let mut rules = doubled(97, doublings);
            rules.push(Rule::Node(98, doublings + 1));
            let plan = plan_of(format, &rules, doublings + 2);
            let list = [row(0, 97, 0, own), row(98, LAST_LABEL, 0, 7)];
            let expected = if own == 0 { Ok(7) } else { Err(Why::Output.here()) };
            assert_eq!(grams(&plan, &list, rules.len()), expected, "2^{doublings} leaves of {own} grams");
            assert!(
                rules::measure(&plan, &mut vec![7; work_bytes(rules.len())]).is_err(),
                "measure looks at the nodes"
            );
        }
    }
}

#[test]
fn an_empty_forest() {
    for format in Format::BOTH {
        let plan = plan_of(format, &[Rule::Empty, Rule::Pair(0, 0)], 1);
        let list = [row(0, LAST_LABEL, 0, 65_535)];
        assert_eq!(grams(&plan, &list, 2), Ok(0));
        let unfolded = Unfolded::of(&plan, 0).expect("no nodes");
        assert_eq!(unfolded.grams(&list, &mut vec![7; work_bytes(2)]), Ok(0));
    }
}

#[test]
fn refusals_in_their_order() {
    let too_heavy = plan_of(Format::Narrow, &doubled(97, 70), 71);
    let heavy = [row(0, LAST_LABEL, 0, 1)];
    for (rows, refused) in [
        (&[][..], Why::Gap.here()),
        (&[row(0, 97, 4, 1), LIST[1], LIST[2]], Why::Row.here()),
        (&[LIST[0], row(98, 97, 0, 1), LIST[2]], Why::Row.at(1)),
        (&[LIST[0], LIST[2]], Why::Gap.at(1)),
        (&[LIST[0], LIST[1]], Why::Gap.at(2)),
        (&[LIST[0], LIST[0], LIST[1], LIST[2]], Why::Overlap.at(1)),
    ] {
        for format in Format::BOTH {
            let plan = plan_of(format, &SAMPLE, 7);
            let unfolded = Unfolded::of(&plan, 11).expect("eleven nodes");
            for bytes in [0, 511, 512, 600] {
                let mut work = vec![7; bytes];
                assert_eq!(rules::grams(&plan, rows, &mut work), Err(refused), "the list comes before work");
                assert_eq!(unfolded.grams(rows, &mut work), Err(refused));
                assert_eq!(rules::grams(&plan[1..], rows, &mut work), Err(Why::Distance.here()), "the plan before it");
                assert_eq!(work, vec![7; bytes], "and nothing is cleared");
            }
        }
        assert_eq!(rules::grams(&too_heavy, rows, &mut vec![7; work_bytes(72)]), Err(refused), "the sum comes last");
    }
    for bytes in [0, work_bytes(72) - 1] {
        let mut work = vec![7; bytes];
        assert_eq!(rules::grams(&too_heavy, &heavy, &mut work), Err(Why::Lent.here()), "work comes before the sum");
        assert_eq!(work, vec![7; bytes]);
    }
    assert_eq!(grams(&too_heavy, &heavy, 72), Err(Why::Output.here()));
    // More rules take more work, and what is longer is left behind that.
    let plan = plan_of(Format::Wide, &vec![Rule::Empty; 1_025], 0);
    let mut work = vec![7; 82_003];
    assert_eq!(rules::grams(&plan, &heavy, &mut work[..81_999]), Err(Why::Lent.here()));
    assert_eq!(rules::grams(&plan, &heavy, &mut work), Ok(0));
    assert_eq!((work[..82_000].iter().all(|byte| *byte == 0), &work[82_000..]), (true, &[7; 3][..]));
}
