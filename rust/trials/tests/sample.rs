//! The cases of document 01, as document 02 leaves them, by the safe functions.
use mealplan::{Checked, Compared, LAST_LABEL, LabelRow, Measured, NARROW, NOWHERE, Refused, Unsealed, WIDE};
use reference::Format;
use reference::plan::{Rule, WORDS};
use trials::draft::Draft;
use trials::families;

/// A reader that lends the buffers and keeps the cursor.
struct Reader {
    plan: Vec<u8>,
    work: Vec<u8>,
    cursor: Vec<u8>,
}

impl Reader {
    fn new(draft: &Draft) -> Reader {
        Reader {
            plan: draft.plan(),
            work: vec![9; mealplan::work_bytes(draft.n())],
            cursor: vec![0; 32 * (draft.n() + 1)],
        }
    }

    /// The labels that letters lead to, none for nowhere.
    fn walk(&mut self, letters: &str) -> Result<Vec<Option<u32>>, Refused> {
        let mut answers = vec![0; 4 * letters.len()];
        mealplan::walk(&self.plan, &mut self.work, &mut self.cursor, letters.as_bytes(), &mut answers)?;
        Ok(mealplan::labels(&answers).collect())
    }

    /// The used cells, cell 0 left out; every later word must be zero.
    fn cells(&self) -> Vec<[u16; 4]> {
        let words: Vec<u16> = self.cursor.chunks(2).map(|word| u16::from_le_bytes([word[0], word[1]])).collect();
        let k = usize::from(words[0]);
        assert!(words[4 * (k + 1)..].iter().all(|word| *word == 0));
        words[4..4 * (k + 1)].chunks(4).map(|cell| [cell[0], cell[1], cell[2], cell[3]]).collect()
    }
}

/// Answers as the safe functions give them.
fn labels(answers: &[u32]) -> Vec<Option<u32>> {
    answers.iter().map(|answer| (*answer != 4_294_967_295).then_some(*answer)).collect()
}

fn refused(number: u32, position: u64) -> Refused {
    Refused { number, position }
}

#[test]
fn answers_of_the_sample_plan() {
    let answers = Reader::new(&families::sample()).walk("afnnfnnnnununnn");
    assert_eq!(answers, Ok(labels(&[99, 97, 98, 99, 97, 98, 97, 98, NOWHERE, 99, 98, 99, 97, 98, NOWHERE])));
}

#[test]
fn cells_of_the_sample_plan() {
    let mut reader = Reader::new(&families::sample());
    reader.walk("a").unwrap();
    assert_eq!(reader.cells(), [[1, 0, 7, 0], [3, 7, 6, 0], [2, 6, 0, 0], [3, 5, 4, 0]]);
    reader.walk("fnnfnn").unwrap();
    assert_eq!(reader.cells(), [[1, 0, 7, 0], [3, 7, 6, 0], [2, 6, 0, 0], [4, 5, 4, 0], [2, 1, 0, 0]]);
    reader.walk("n").unwrap();
    assert_eq!(reader.cells(), [[1, 0, 7, 0], [3, 7, 6, 0], [2, 6, 0, 0], [4, 5, 4, 0], [1, 2, 2, 0], [2, 2, 0, 0]]);
}

#[test]
fn days_of_the_sample_plan() {
    for draft in [families::sample(), wide_sample()] {
        let [a, b] = [1, 2].map(|rule| draft.rule(rule).label());
        let above = |word: u16| {
            let mut reader = Reader::new(&draft);
            mealplan::stand_above(&mut reader.cursor, word);
            reader
        };
        let mut day = above(mealplan::rule_word(3));
        assert_eq!(day.walk("a"), Ok(vec![a]));
        assert_eq!(day.cells(), [[1, 0, 3, 0], [3, 3, 1, 0], [2, 1, 0, 0]]);
        assert_eq!(day.cursor[..8], [3, 0, 4, 0, 0, 0, 0, 0]);
        assert_eq!(day.walk("nnu"), Ok(vec![b, None, None]));
        assert_eq!(day.cells(), [[1, 0, 3, 0], [4, 3, 2, 0], [2, 2, 0, 0]]);
        assert_eq!(day.walk("ux"), Err(refused(9, 1)));
        assert_eq!(day.cursor[..8], [3, 0, 4, 0, 0, 0, 0, 0], "the word stays");
        let (mut start, mut named) = (above(0), above(8));
        assert_eq!(named.walk("afnnfnn"), start.walk("afnnfnn"));
        named.cursor[2] = 0;
        assert_eq!(named.cursor, start.cursor, "they differ in the word alone");
        assert_eq!(above(1).walk("az"), Ok(vec![None; 2]), "the empty rule");
        for word in [5, 6, 9, 10, 256, 65_535] {
            assert_eq!(above(word).walk("a"), Err(refused(10, 0)), "word {word}");
        }
        start.walk("z").expect("from a place");
        let (plan, mut work) = (draft.plan(), vec![9; mealplan::work_bytes(8)]);
        let mut compare =
            |one: &Reader, other: &Reader| mealplan::compare(&plan, &mut work, &one.cursor, &other.cursor, 9);
        assert_eq!(compare(&day, &start), Ok(Compared::Same(1)), "98 of rule 3 and 98 of the start rule");
        start.walk("p").expect("from a place");
        assert_eq!(compare(&start, &day), Ok(Compared::Differ(1)));
    }
}

#[test]
fn sizes_of_the_sample_plan() {
    let draft = families::sample();
    let (plan, mut work) = (draft.plan(), vec![9; mealplan::work_bytes(draft.n())]);
    assert_eq!(mealplan::check(&plan), Ok(Checked { n: 8, start: 7 }));
    assert_eq!(mealplan::measure(&plan, &mut work), Ok(Measured { trees: 3, entries: 11, levels: 3 }));
    let mut text = [0; 33];
    assert_eq!(mealplan::spread(&plan, &mut work, &mut text), Ok(33));
    assert_eq!(&text, b"(c(a)(b)(c(a)(b)(a)(b))(b))(a)(b)");
    assert_eq!(mealplan::spread(&plan, &mut work, &mut text[..32]), Err(refused(11, 0)));
    let mut words = [0; 64];
    assert_eq!(mealplan::unseal(&plan, &mut words), Ok(Unsealed { record_length: NARROW, n: 8, start: 7 }));
    let mut sealed = [0; 74];
    assert_eq!(mealplan::seal(&words, NARROW, 7, &mut sealed), Ok(74));
    assert_eq!(sealed, plan[..]);
}

/// The sample plan as a wide one: 65,535 for 97, a label of three different bytes for 98, and the last label for 99.
fn wide_sample() -> Draft {
    let label = |old| [65_535, 0x01_02_03, 16_777_215][old as usize - 97];
    families::sample().relabelled(label).in_format(Format::Wide)
}

#[test]
fn the_sample_plan_as_a_wide_one() {
    let draft = wide_sample();
    let (plan, mut work) = (draft.plan(), vec![9; mealplan::work_bytes(draft.n())]);
    let file = concat!(env!("CARGO_MANIFEST_DIR"), "/../../samples/wide.bin");
    assert_eq!(plan, std::fs::read(file).expect("samples/wide.bin"));
    assert_eq!(mealplan::check(&plan), Ok(Checked { n: 8, start: 7 }));
    assert_eq!(mealplan::measure(&plan, &mut work), Ok(Measured { trees: 3, entries: 11, levels: 3 }));
    let [a, b, c] = [65_535, 66_051, 16_777_215];
    let answers = Reader::new(&draft).walk("afnnfnnnnununnn");
    assert_eq!(answers, Ok(labels(&[c, a, b, c, a, b, a, b, NOWHERE, c, b, c, a, b, NOWHERE])));
    let mut text = [0; 55];
    assert_eq!(mealplan::spread(&plan, &mut work, &mut text[..54]), Err(refused(11, 0)));
    assert_eq!(mealplan::spread(&plan, &mut work, &mut text), Ok(55));
    assert_eq!(text[..15], *b"(\xFF\xFF\xFF(\xFF\xFF\x00)(\x03\x02\x01)(");
    let mut words = [0; 80];
    assert_eq!(mealplan::unseal(&plan, &mut words[..79]), Err(refused(11, 0)));
    assert_eq!(mealplan::unseal(&plan, &mut words), Ok(Unsealed { record_length: WIDE, n: 8, start: 7 }));
    let mut sealed = [0; 90];
    assert_eq!(mealplan::seal(&words, WIDE, 7, &mut sealed[..89]), Err(refused(11, 0)));
    assert_eq!(mealplan::seal(&words, WIDE, 7, &mut sealed), Ok(90));
    assert_eq!(sealed, plan[..]);
    for record_length in [0, 7, 9, 11, 65_535] {
        assert_eq!(mealplan::seal(&words, record_length, 7, &mut sealed), Err(refused(1, 0)));
    }
}

#[test]
fn labels_of_wide_plans() {
    for label in [0, 255, 256, 65_535, 65_536, 16_777_215] {
        let records = vec![[0; WORDS], Rule::Node(label, 0).words()];
        let draft = Draft { format: Format::Wide, records, start: 1, ..Draft::default() };
        assert_eq!(Reader::new(&draft).walk("asf"), Ok(labels(&[label, label, NOWHERE])));
    }
    let fifth = |kind, fifth| {
        let records = vec![[0; WORDS], [kind, 0, 0, 0, fifth]];
        mealplan::check(&Draft { format: Format::Wide, records, ..Draft::default() }.plan())
    };
    for (kind, most) in [(0, 0), (1, 0), (2, 255), (4, 255)] {
        assert_eq!(fifth(kind, most), Ok(Checked { n: 2, start: 0 }));
        assert_eq!(fifth(kind, most + 1), Err(refused(4, 1)));
    }
}

#[test]
fn the_sample_plan_with_dividers() {
    for format in Format::BOTH {
        for (labels, entries) in [([97, 0, 99], 6), ([0, 98, 99], 7), ([97, 98, 0], 9), ([0, 0, 0], 0)] {
            let draft = families::sample().relabelled(|old| labels[old as usize - 97]).in_format(format);
            let (plan, mut work) = (draft.plan(), vec![9; mealplan::work_bytes(8)]);
            assert_eq!(mealplan::measure(&plan, &mut work), Ok(Measured { trees: 3, entries, levels: 3 }));
            let mut text = vec![9; 11 * format.node()];
            let short = text.len() - 1;
            assert_eq!(mealplan::spread(&plan, &mut work, &mut text[..short]), Err(refused(11, 0)));
            assert_eq!(mealplan::spread(&plan, &mut work, &mut text), Ok(text.len() as u64), "bytes for every node");
            let [a, b, c] = labels;
            let answers = Reader::new(&draft).walk("afnn");
            assert_eq!(answers, Ok([c, a, b, c].map(Some).to_vec()), "a divider is walked as any other node");
            let each = [LabelRow::new(0, LAST_LABEL, 0).weighing(1)];
            assert_eq!(mealplan::grams(&plan, &each, &mut work), Ok(11), "a divider weighs as any other node");
        }
    }
    let rules = [Rule::Empty, Rule::Node(0, 0), Rule::Node(65_536, 0), Rule::Pair(1, 2)];
    let draft = Draft { format: Format::Wide, records: rules.map(Rule::words).to_vec(), start: 3, ..Draft::default() };
    let measured = mealplan::measure(&draft.plan(), &mut [9; 256]);
    assert_eq!(measured, Ok(Measured { trees: 2, entries: 1, levels: 1 }), "label 0 is the whole label");
    for (count, expected) in [(1 << 64, Err(refused(11, 0))), ((1 << 64) - 1, Ok((u64::MAX, 0, 1)))] {
        let draft = families::leaves(count).relabelled(|_| 0);
        let measured = mealplan::measure(&draft.plan(), &mut vec![9; mealplan::work_bytes(draft.n())]);
        assert_eq!(measured.map(|size| (size.trees, size.entries, size.levels)), expected, "11 looks at all nodes");
    }
}

#[test]
fn an_empty_forest() {
    for format in Format::BOTH {
        let empty = Draft { format, records: vec![[0; WORDS]], ..Draft::default() };
        assert_eq!(Reader::new(&empty).walk("az"), Ok(vec![None, None]));
        assert_eq!(mealplan::measure(&empty.plan(), &mut [0; 64]), Ok(Measured::default()));
    }
}

#[test]
fn refusals() {
    assert_eq!(mealplan::check(&[]), Err(refused(1, 0)));
    assert_eq!(mealplan::check(&[0, 0, 0, 0, 0, 0, 0, 0, 0x6D, 0x70]), Err(refused(2, 0)));
    assert_eq!(mealplan::check(&[0, 0, 0, 0, 0, 0, 0, 0, 0x6D, 0x71]), Err(refused(2, 0)));
    assert_eq!(mealplan::check(&[0, 0, 0, 0, 0, 0, 0, 0, 0x6D, 0x72]), Err(refused(1, 0)));
    let itself = Draft { records: vec![[1, 0, 0, 0, 0]], ..Draft::default() };
    assert_eq!(mealplan::check(&itself.plan()), Err(refused(12, 0)));
    let label = |label| Draft { records: vec![[0; WORDS], [2, label, 0, 0, 0]], ..Draft::default() }.plan();
    assert_eq!(mealplan::check(&label(255)), Ok(Checked { n: 2, start: 0 }));
    assert_eq!(mealplan::check(&label(256)), Err(refused(4, 1)));
    assert_eq!(Reader::new(&families::sample()).walk("af?"), Err(refused(9, 2)));
}

#[test]
fn plans_for_a_whole_ward() {
    for format in Format::BOTH {
        for n in [1_024, 1_025, 16_384] {
            let records = (0..n).map(|rule: u16| match rule {
                0 => [0; WORDS],
                _ => Rule::Node(u32::from(rule % 256), rule - 1).words(),
            });
            let draft = Draft { format, records: records.collect(), start: n - 1, ..Draft::default() };
            let (plan, mut reader) = (draft.plan(), Reader::new(&draft));
            assert_eq!(mealplan::check(&plan), Ok(Checked { n, start: n - 1 }));
            let bytes = usize::from(n) * if n > 1_024 { 80 } else { 64 };
            assert_eq!(mealplan::measure(&plan, &mut vec![9; bytes - 1]), Err(refused(8, 0)));
            let levels = u64::from(n) - 1;
            // Of 256 labels one is a divider's.
            let entries = levels - levels / 256;
            assert_eq!(mealplan::measure(&plan, &mut vec![9; bytes]), Ok(Measured { trees: 1, entries, levels }));
            let down = reader.walk(&format!("a{}", "f".repeat(n.into()))).expect("from above");
            assert_eq!(down[..2], [Some(u32::from((n - 1) % 256)), Some(u32::from((n - 2) % 256))]);
            assert_eq!(down[usize::from(n) - 2..], [Some(1), None, None]);
            let cells = reader.cells();
            assert_eq!(cells.len(), 2 * (usize::from(n) - 1));
            assert_eq!(cells[cells.len() - 2..], [[1, 0, 1, 0], [2, 1, 0, 0]]);
            assert_eq!(reader.walk("su"), Ok(labels(&[1, 2])));
        }
        let many = |n: usize| Draft { format, records: vec![[0; WORDS]; n], ..Draft::default() };
        assert_eq!(mealplan::check(&many(16_385).plan()), Err(refused(2, 0)));
        assert_eq!(mealplan::seal(&many(16_385).words(), format.record_length(), 0, &mut []), Err(refused(2, 0)));
        assert_eq!(mealplan::seal(&many(16_384).words(), format.record_length(), 0, &mut []), Err(refused(11, 0)));
    }
    assert_eq!((mealplan::FEW_RULES, mealplan::MOST_RULES), (1_024, 16_384));
}

#[test]
fn two_places_of_the_sample_plan() {
    for draft in [families::sample(), wide_sample()] {
        let [tree, hole, child, leaf, last] = ["a", "afnn", "af", "an", "z"].map(|letters| {
            let mut reader = Reader::new(&draft);
            reader.walk(letters).expect("from above");
            reader.cursor
        });
        let (plan, mut work) = (draft.plan(), vec![9; mealplan::work_bytes(draft.n())]);
        let mut compare =
            |first: &[u8], second: &[u8], budget| mealplan::compare(&plan, &mut work, first, second, budget);
        for budget in [9, 10, u32::MAX] {
            assert_eq!(compare(&tree, &tree, budget), Ok(Compared::Same(9)));
            assert_eq!(compare(&hole, &hole, budget), Ok(Compared::Same(5)));
            assert_eq!(compare(&tree, &hole, budget), Ok(Compared::Differ(4)));
            assert_eq!(compare(&child, &leaf, budget), Ok(Compared::Same(1)));
            assert_eq!(compare(&leaf, &last, budget), Ok(Compared::Differ(1)));
        }
        assert_eq!(compare(&tree, &tree, 8), Ok(Compared::Spent(8)));
        assert_eq!(compare(&tree, &hole, 3), Ok(Compared::Spent(3)));
        assert_eq!(compare(&leaf, &leaf, 0), Ok(Compared::Spent(0)));
        let above = vec![0; tree.len()];
        assert_eq!(compare(&above, &tree, 9), Err(refused(10, 0)));
        assert_eq!(compare(&tree, &above, 9), Err(refused(10, 0)));
        assert_eq!(compare(&above, &tree[..tree.len() - 1], 9), Err(refused(8, 0)));
    }
}

/// A list in which the labels of the sample plan, or of the wide one, are of these classes: that of a, of b and of c.
fn list([a, b, c]: [u32; 3], classes: [u16; 3]) -> Vec<LabelRow> {
    let row = |lowest, highest, class| LabelRow::new(lowest, highest, class).weighing(7);
    vec![row(0, a, classes[0]), row(a + 1, b, classes[1]), row(b + 1, c, classes[2]), row(c + 1, LAST_LABEL, 3)]
}

#[test]
fn copies_of_the_sample_plan() {
    let rows = list([97, 98, 99], [0, 2, 1]);
    let draft = families::sample();
    let (plan, mut work) = (draft.plan(), vec![9; mealplan::work_bytes(8)]);
    for (class, text, measured) in [
        (3, "(c(a)(b)(c(a)(b)(a)(b))(b))(a)(b)", [3, 11, 3]),
        (2, "(c(a)(b)(c(a)(b)(a)(b))(b))(a)(b)", [3, 11, 3]),
        (1, "(c(a)(c(a)(a)))(a)", [2, 6, 3]),
        (0, "(a)", [1, 1, 1]),
    ] {
        let mut out = vec![5; mealplan::copy_bytes(8) + 3];
        let length = mealplan::copy(&plan, &rows, class, &mut work, &mut out).expect("a sound list");
        assert_eq!(out[length..], vec![5; out.len() - length]);
        assert!(work.iter().all(|byte| *byte == 0));
        let copy = &out[..length];
        let Checked { n, .. } = mealplan::check(copy).expect("a copy is a plan");
        assert!(copy.ends_with(b"mq") && length == 10 * usize::from(n) + 10 && n <= 24);
        let mut work = vec![9; mealplan::work_bytes(n.into())];
        let [trees, entries, levels] = measured;
        assert_eq!(mealplan::measure(copy, &mut work), Ok(Measured { trees, entries, levels }));
        let mut spread = vec![0; 5 * (text.len() / 3)];
        mealplan::spread(copy, &mut work, &mut spread).expect("the text fits");
        // The high parts of labels below 256 are zeros, and nothing else is.
        spread.retain(|byte| *byte != 0);
        assert_eq!(String::from_utf8_lossy(&spread), text);
    }
    let mut out = vec![5; mealplan::copy_bytes(8)];
    let copy =
        |rows: &[LabelRow], class, work: &mut [u8], out: &mut [u8]| mealplan::copy(&plan, rows, class, work, out);
    assert_eq!(copy(&rows, 4, &mut work, &mut out), Err(refused(13, 0)));
    assert_eq!(copy(&[], 4, &mut work, &mut out), Err(refused(13, 0)));
    assert_eq!(copy(&rows[..3], 0, &mut work, &mut out), Err(refused(14, 3)));
    assert_eq!(copy(&rows[1..], 0, &mut work, &mut out), Err(refused(14, 0)));
    assert_eq!(copy(&rows, 0, &mut work, &mut out[1..]), Err(refused(8, 0)));
    assert_eq!(copy(&rows, 0, &mut work[1..], &mut out), Err(refused(8, 0)));
    assert!(out.iter().all(|byte| *byte == 5), "a refusal writes nothing");
}

#[test]
fn grams_of_the_sample_plan() {
    // Label 97 four times, 98 five times, 99 twice.
    let grams = |rows: &[LabelRow], grams: [u16; 4]| -> Vec<LabelRow> {
        rows.iter().zip(grams).map(|(row, grams)| row.weighing(grams)).collect()
    };
    for (draft, labels) in [(families::sample(), [97, 98, 99]), (wide_sample(), [65_535, 66_051, 16_777_214])] {
        let rows = list(labels, [0, 2, 1]);
        let (plan, mut work) = (draft.plan(), vec![9; mealplan::work_bytes(8) + 3]);
        // The wide plan's last label stands in the last row.
        let heavy = if labels[0] == 97 { [120, 30, 250, 9] } else { [120, 30, 9, 250] };
        assert_eq!(mealplan::grams(&plan, &grams(&rows, heavy), &mut work), Ok(1_130));
        assert_eq!((work[..512].iter().all(|byte| *byte == 0), &work[512..]), (true, &[9; 3][..]));
        assert_eq!(mealplan::grams(&plan, &grams(&rows, [1; 4]), &mut work), Ok(11));
        assert_eq!(mealplan::grams(&plan, &grams(&rows, [65_535; 4]), &mut work), Ok(720_885));
        assert_eq!(mealplan::grams(&plan, &grams(&rows, [0; 4]), &mut work), Ok(0));
        work.fill(9);
        assert_eq!(mealplan::grams(&plan, &rows[..3], &mut work), Err(refused(14, 3)));
        assert_eq!(mealplan::grams(&plan, &rows[..3], &mut work[..511]), Err(refused(14, 3)), "the list before work");
        assert_eq!(mealplan::grams(&plan, &rows, &mut work[..511]), Err(refused(8, 0)));
        assert_eq!(mealplan::grams(&plan[1..], &rows[..3], &mut work), Err(refused(3, 0)), "the plan before the list");
        assert_eq!(work, vec![9; work.len()], "and work stays");
    }
    for format in Format::BOTH {
        let empty = Draft { format, records: vec![[0; WORDS]], ..Draft::default() };
        assert_eq!(mealplan::grams(&empty.plan(), &list([97, 98, 99], [0; 3]), &mut [9; 64]), Ok(0));
        // 2^48 + 2^32 + 2^16 + 1 leaves of 65,535 grams are 2^64 − 1, and as many of one gram more than that.
        let many = 0x0001_0001_0001_0001;
        for (count, each, expected) in [
            (many, 65_535, Ok(u64::MAX)),
            (many + 1, 65_535, Err(refused(11, 0))),
            (1 << 64, 1, Err(refused(11, 0))),
            ((1 << 64) - 1, 1, Ok(u64::MAX)),
            (1 << 70, 0, Ok(0)),
        ] {
            let draft = families::leaves(count).in_format(format);
            let rows = [LabelRow::new(0, LAST_LABEL, 3).weighing(each)];
            let mut work = vec![9; mealplan::work_bytes(draft.n())];
            assert_eq!(mealplan::grams(&draft.plan(), &rows, &mut work), expected, "{count} leaves of {each} grams");
            assert!(work.iter().all(|byte| *byte == 0), "past 8 work is zeros");
        }
    }
}

#[test]
fn copies_of_wards() {
    let rows = list([97, 98, 99], [0, 0, 0]);
    for format in Format::BOTH {
        for (n, refusal) in [(1_024, None), (1_025, None), (4_096, None), (4_097, Some(16)), (16_384, Some(16))] {
            let draft = Draft { format, records: vec![[0; WORDS]; n], ..Draft::default() };
            let (mut work, mut out) = (vec![9; mealplan::work_bytes(n)], vec![9; mealplan::copy_bytes(n)]);
            let length = mealplan::copy(&draft.plan(), &rows, 0, &mut work, &mut out);
            assert_eq!(length.err(), refusal.map(|number| refused(number, 0)));
            let lent = mealplan::copy(&draft.plan(), &rows, 0, &mut work[1..], &mut out);
            assert_eq!(lent, Err(refused(refusal.unwrap_or(8), 0)), "16 comes before 8");
        }
    }
    assert_eq!(mealplan::MOST_COPIED, 4_096);
}
