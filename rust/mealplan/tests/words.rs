//! The part of the crate that calls no C function: lengths, formats, rules, answers, places and the words of refusals and reasons. Miri can run it.
use mealplan::*;

#[test]
fn lengths_by_the_header() {
    assert_eq!((work_bytes(1_024), work_bytes(1_025)), (65_536, 82_000));
    assert_eq!((cursor_bytes(8), answers_bytes(3), copy_bytes(8)), (288, 12, 330));
    assert_eq!((plan_bytes(8, Format::Narrow), plan_bytes(8, Format::Wide)), (74, 90));
    assert_eq!((words_bytes(8, Format::Narrow), words_bytes(8, Format::Wide)), (64, 80));
    assert_eq!((text_bytes(11, Format::Narrow), text_bytes(11, Format::Wide)), (Some(33), Some(55)));
    assert_eq!(text_bytes(u64::MAX / 3 + 1, Format::Narrow), None);
}

#[test]
fn rules_in_words() {
    let label = 0x00_02_01_07;
    assert_eq!(Rule::Node(label, 9).words(Format::Wide), [2, 0x0107, 9, 0, 2]);
    assert_eq!(Rule::Part(255, 3, 2).words(Format::Narrow), [4, 255, 3, 2, 0]);
    assert_eq!(Rule::Part(label, 3, 2).words(Format::Narrow), [4, 65_535, 3, 2, 0]);
    assert_eq!(Rule::Join(3, 2).words(Format::Wide), [5, 3, 2, 0, 0]);
}

#[test]
fn rows_as_c_has_them() {
    const ROW: LabelRow = LabelRow::new(98, LAST_LABEL, 2).weighing(65_535);
    assert_eq!(ROW, LabelRow { lowest: 98, highest: LAST_LABEL, class: 2, grams: 65_535 });
    assert_eq!((LabelRow::new(0, 9, 1).grams, LabelRow::default().weighing(7).weighing(0)), (0, LabelRow::default()));
    assert_eq!((size_of::<LabelRow>(), align_of::<LabelRow>()), (12, 4));
}

#[test]
fn places_of_any_bytes() {
    for length in 0..40 {
        let bytes: Vec<u8> =
            (0..length).map(|byte| if byte == 0 { 2 } else { (byte % 2) as u8 * byte as u8 }).collect();
        let place = Place::from_bytes(&bytes);
        assert!(bytes.starts_with(place.as_bytes()) && place.as_bytes().len() <= 8 + 8 * 0x0102);
        assert_eq!(place.cells().count(), (place.as_bytes().len() / 8).saturating_sub(1));
    }
    assert_eq!(Place::from_bytes(&[1, 0, 0, 0, 0, 0, 0, 0, 2, 0, 1, 2, 0, 0, 0, 0, 9]).to_string(), "(2, 513, 0, 0)");
}

#[test]
fn words_that_name_rules() {
    assert_eq!([0, 3, 16_383, 65_534, 65_535].map(rule_word), [1, 4, 16_384, 65_535, 65_535]);
    for length in 0..=10 {
        let mut cursor = [7; 10];
        stand_above(&mut cursor[..length], 0x0102);
        assert_eq!(cursor[..length], [0, 0, 2, 1, 0, 0, 0, 0, 7, 7][..length]);
        assert!(cursor[length..].iter().all(|byte| *byte == 7));
    }
    let (above, day) = (Place::above(), Place::above_rule(3));
    assert_eq!((above.rule(), day.rule(), Place::from_bytes(&[]).rule()), (None, Some(3), None));
    assert_eq!((above.to_string(), day.to_string()), (String::new(), "rule 3".into()));
    assert!(above != day && day.is_empty() && day.as_bytes() == [0, 0, 4, 0, 0, 0, 0, 0]);
    assert_eq!(
        Place::from_bytes(&[1, 0, 4, 0, 0, 0, 0, 0, 2, 0, 1, 0, 0, 0, 0, 0]).to_string(),
        "rule 3: (2, 1, 0, 0)"
    );
}

#[test]
fn answers_and_words() {
    assert!(labels(&[]).next().is_none());
    assert!(labels(&[1, 2, 3, 0, 255, 255, 255, 255, 1, 2, 3]).eq([Some(197_121), None]));
    assert_eq!(Refusal::from_number(0), None);
    assert!(Refusal::ALL.iter().all(|refusal| refusal.at(3).to_string().contains(" at 3: ")));
}

#[test]
fn reasons_in_words() {
    for (number, reason) in (0..).zip(Reason::ALL) {
        assert_eq!((reason.number(), Reason::from_number(number)), (number, Some(reason)));
        assert_eq!(reason.moves(), number == 0);
        let text = reason.to_string();
        assert!(Reason::ALL.iter().all(|other| *other == reason || other.to_string() != text), "{text}");
        assert_eq!(format!("{reason:70}|"), format!("{text:70}|"));
    }
    assert_eq!((Reason::from_number(7), Reason::from_number(u32::MAX)), (None, None));
}
