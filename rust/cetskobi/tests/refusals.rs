//! The refusals and their numbers.

use cetskobi::Refusal;

#[test]
fn every_number_comes_back() {
    for &refusal in Refusal::ALL {
        assert_eq!(Refusal::from_number(refusal.number()), Some(refusal));
    }
    let numbers: Vec<u8> = Refusal::ALL.iter().map(|r| r.number()).collect();
    assert_eq!(numbers[..27], (1..=27).collect::<Vec<u8>>());
    assert_eq!(numbers[27..], [255]);
}

#[test]
fn no_other_number_is_a_refusal() {
    for number in (28..255).chain([0]) {
        assert_eq!(Refusal::from_number(number), None);
    }
}

#[test]
fn each_says_its_number_and_a_meaning_of_its_own() {
    for refusal in Refusal::ALL {
        let number = format!("({})", refusal.number());
        assert!(refusal.to_string().contains(&number));
        let alike = Refusal::ALL
            .iter()
            .filter(|r| r.meaning() == refusal.meaning());
        assert_eq!(alike.count(), 1);
    }
    assert_eq!(
        Refusal::ValueTooLong.to_string(),
        "refused (8): the value is longer than 192 bytes"
    );
}
