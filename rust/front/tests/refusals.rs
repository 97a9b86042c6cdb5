//! docs/refusals.txt is whole, and docs/REFUSALS.md is made from it.
//! After a change of the file, `guard-front refusals > docs/REFUSALS.md` brings the page up to date.

mod common;

use front::{refusals, refusals_page};

#[test]
fn the_file_has_each_number_once_and_in_order() {
    let numbers: Vec<_> = refusals().map(|refusal| refusal.number).collect();
    assert_eq!(numbers, (1..=22).collect::<Vec<_>>());
}

#[test]
fn every_field_is_filled_and_fits_a_table() {
    for refusal in refusals() {
        for text in [refusal.constant, refusal.words, refusal.question, refusal.what_to_do] {
            assert!(!text.trim().is_empty() && text.trim() == text, "{refusal:?}");
            assert!(!text.contains('|'), "{refusal:?}");
        }
        assert!(refusal.question.ends_with('?'), "{refusal:?}");
        assert!(refusal.what_to_do.ends_with('.'), "{refusal:?}");
        assert!(!refusal.words.ends_with('.'), "{refusal:?}");
    }
}

#[test]
fn the_page_is_up_to_date() {
    let page = common::read("docs/REFUSALS.md");
    assert_eq!(page, refusals_page(), "make it with: guard-front refusals > docs/REFUSALS.md");
}
