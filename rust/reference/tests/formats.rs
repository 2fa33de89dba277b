//! Wide plans (document 02, Note 2): marks, record lengths, labels and fifth words, answers of four bytes, texts of five bytes a node.
use reference::plan::{self, Rule, WORDS, cursor_bytes, work_bytes};
use reference::unfolded::Unfolded;
use reference::{Checked, Format, NOWHERE, Refused, Unsealed, Why, answers, rules};

/// A plan without cover, whatever its rules.
fn plan_of(format: Format, records: &[[u16; WORDS]], start: u16) -> Vec<u8> {
    let words = records.iter().flat_map(|record| &record[..format.words()]);
    let mut plan: Vec<u8> = words.flat_map(|word| word.to_le_bytes()).collect();
    plan.extend(plan::trailer(format, records.len(), start));
    plan
}

const EMPTY: [u16; WORDS] = [0; WORDS];

#[test]
fn every_mark() {
    for (format, other) in [(Format::Narrow, Format::Wide), (Format::Wide, Format::Narrow)] {
        let plan = plan_of(format, &[EMPTY, EMPTY], 1);
        for mark in 0..=65_535_u16 {
            let mut marked = plan.clone();
            let at = plan.len() - 2;
            marked[at..].copy_from_slice(&mark.to_be_bytes());
            let expected = match mark {
                _ if mark.to_be_bytes() == format.mark() => Ok(Checked { n: 2, start: 1 }),
                // The distance is the other format's.
                _ if mark.to_be_bytes() == other.mark() => Err(Why::Distance.here()),
                _ => Err(Why::Mark.here()),
            };
            assert_eq!(plan::check(&marked), expected, "mark {mark:04x}");
        }
    }
    assert_eq!(Format::BOTH.map(Format::mark), [*b"mp", *b"mq"]);
}

#[test]
fn every_record_length() {
    let mut out = [7; 60];
    for length in 0..=65_535 {
        // Twenty words are five rules of four and four of five.
        let sealed = plan::seal(&[0; 40], length, 0, &mut out);
        let nothing = plan::seal(&[], length, 9, &mut []);
        let expected = match length {
            8 | 10 => (Ok(50), Err(Why::Count.here())),
            _ => (Err(Why::Mark.here()), Err(Why::Mark.here())),
        };
        assert_eq!((sealed, nothing), expected, "record length {length}");
    }
}

#[test]
fn words_of_seal_and_room() {
    for format in Format::BOTH {
        let record = format.record();
        for words in 0..4 * format.words() {
            for odd in [0, 1] {
                let lent = vec![0; 2 * words + odd];
                let n = words / format.words();
                let expected =
                    if n == 0 || words % format.words() > 0 { Err(Why::Count.here()) } else { Ok(record * n + 10) };
                let sealed = plan::seal(&lent, format.record_length(), 0, &mut [1; 100]);
                assert_eq!(sealed, expected.map(|length| length as u64), "{words} words");
                let Ok(needed) = expected else { continue };
                let mut short = vec![1; needed - 1];
                let refused = plan::seal(&lent, format.record_length(), 0, &mut short);
                assert_eq!((refused, short), (Err(Why::Output.here()), vec![1; needed - 1]));
            }
        }
        let plan = plan_of(format, &[[2, 200, 1, 0, 0], EMPTY], 0);
        let unsealed = Unsealed { record_length: format.record_length(), n: 2, start: 0 };
        let mut words = vec![1; 2 * record + 1];
        assert_eq!(plan::unseal(&plan, &mut words), Ok(unsealed));
        assert!(words[..2 * record] == plan[..2 * record] && words[2 * record] == 1);
        assert_eq!(plan::unseal(&plan, &mut words[..2 * record - 1]), Err(Why::Output.here()));
    }
}

/// What check says of a record after an empty rule, in a plan with such a record for each word to name.
fn judged(format: Format, record: [u16; WORDS]) -> Result<Checked, Refused> {
    plan::check(&plan_of(format, &[EMPTY, [4, 0, 0, 0, 0], [2, 0, 0, 0, 0], record], 0))
}

#[test]
fn labels_and_fifth_words() {
    let fine = Ok(Checked { n: 4, start: 0 });
    let records = [[0, 0, 0, 0], [1, 0, 0, 0], [2, 0, 0, 0], [3, 1, 2, 0], [4, 0, 0, 0], [5, 1, 1, 0]];
    for [kind, a, b, c] in records {
        let labelled = kind == 2 || kind == 4;
        for word in [0, 1, 2, 254, 255, 256, 257, 511, 512, 32_768, 65_280, 65_534, 65_535] {
            let fifth = if word == 0 || labelled && word <= 255 { fine } else { Err(Why::Record.at(3)) };
            assert_eq!(judged(Format::Wide, [kind, a, b, c, word]), fifth, "kind {kind}, fifth word {word}");
            if labelled {
                let label = if word <= 255 { fine } else { Err(Why::Record.at(3)) };
                assert_eq!(judged(Format::Narrow, [kind, word, b, c, 0]), label, "narrow, label {word}");
                for high in [0, 1, 255] {
                    assert_eq!(judged(Format::Wide, [kind, word, b, c, high]), fine, "word 1 is free");
                }
            }
        }
    }
}

/// The labels that lie at an edge, and some.
const LABELS: [u32; 12] =
    [0, 97, 255, 256, 65_534, 65_535, 65_536, 66_051, 16_711_680, 16_776_960, 16_777_214, 16_777_215];

#[test]
fn answers_and_texts() {
    for label in LABELS {
        let records = [EMPTY, Rule::Node(label, 0).words(), Rule::Part(label, 1, 0).words(), Rule::Fill(2, 1).words()];
        for format in Format::BOTH {
            let plan = plan_of(format, &records, 3);
            if label > format.most_label() {
                continue;
            }
            let unfolded = Unfolded::of(&plan, 3).expect("three nodes");
            let bytes = &label.to_le_bytes()[..format.label()];
            let text = [b"(", bytes, b"(", bytes, b")(", bytes, b"))"].concat();
            assert_eq!(text.len(), 3 * format.node());
            for by_rules in [true, false] {
                let (mut work, mut out) = (vec![1; work_bytes(4)], vec![1; text.len() + 1]);
                let mut spread = |out: &mut [u8]| match by_rules {
                    true => rules::spread(&plan, &mut work, out),
                    false => unfolded.spread(&mut work, out),
                };
                assert_eq!(spread(&mut out[..text.len() - 1]), Err(Why::Output.here()));
                assert_eq!(spread(&mut out), Ok(text.len() as u64));
                assert_eq!(out, [&text[..], &[1]].concat());
                walked(&plan, (!by_rules).then_some(&unfolded), label);
            }
        }
    }
}

/// afnn on that plan, with answers too short and with a rest.
fn walked(plan: &[u8], unfolded: Option<&Unfolded>, label: u32) {
    let mut work = vec![1; work_bytes(4)];
    for rest in 0..4 {
        for answered in [3, 4] {
            let (mut cursor, mut out) = (vec![0; cursor_bytes(4)], vec![9; answers::LENGTH * answered + rest]);
            let walked = match unfolded {
                None => rules::walk(plan, &mut work, &mut cursor, b"afnn", &mut out),
                Some(unfolded) => unfolded.walk(&mut work, &mut cursor, b"afnn", &mut out).expect("three nodes"),
            };
            if answered < 4 {
                assert_eq!((walked, out), (Err(Why::Lent.here()), vec![9; 12 + rest]));
                continue;
            }
            let expected = [label, label, label, NOWHERE].map(u32::to_le_bytes).concat();
            assert_eq!((walked, &out[..16], &out[16..]), (Ok(()), &expected[..], &[9; 3][..rest]));
        }
    }
    assert_eq!(NOWHERE, 4_294_967_295);
}
