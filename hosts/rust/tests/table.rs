//! What `Table` and `Names` answer, on small tables whose answers are known by hand.

use tickdrizzle::{
    Copies, IndexPeriod, LimitedSearch, MapCheck, Maps, Names, Part, Profile, Question, Refusal, Side, Table,
};

fn table(cells: &[u8], order: usize) -> Table {
    Table::new(cells.to_vec(), order).expect("it is a table")
}

fn swap() -> Table {
    table(&[1, 2, 2, 1], 2)
}

/// Each product is its first factor.
fn left() -> Table {
    left_of_order(2)
}

fn left_of_order(order: u8) -> Table {
    let cells: Vec<u8> = (1..=order).flat_map(|i| vec![i; order.into()]).collect();
    table(&cells, order.into())
}

/// Each product is its second factor.
fn right() -> Table {
    table(&[1, 2, 1, 2], 2)
}

fn question<T: std::fmt::Debug>(answer: Result<T, Refusal>) -> Question {
    answer.unwrap_err().question
}

#[test]
fn tables_are_checked_once() {
    assert_eq!(question(Table::new(vec![1, 2, 2], 2)), Question::CellCount);
    assert_eq!(question(Table::new(vec![2, 1, 1, 1], 2)), Question::Associativity { i: 1, j: 1, k: 2 });
    assert_eq!(Table::generated(vec![1, 2, 2, 1], 2, &[2]), Ok(swap()));
    assert_eq!(question(Table::generated(vec![1, 2, 2, 1], 2, &[1])), Question::Generation);
    assert_eq!(question(Table::generated(vec![1, 2, 2, 1], 2, &[3])), Question::Generator);
    assert_eq!(question(Table::transformations(4)), Question::Degree);
    assert_eq!(Table::load(&swap().text()), Ok(swap()));
}

#[test]
fn elements_have_invariants() {
    assert_eq!(swap().index_period(2), Ok(IndexPeriod { index: 1, period: 2, idempotent: 1 }));
    let profile =
        Profile { index: 1, period: 2, idempotent: 1, frequency: 2, diagonal: 0, row: 1, column: 1, commuting: 2 };
    assert_eq!(swap().profile(2), Ok(profile));
    assert_eq!(question(swap().profile(3)), Question::Element);
    assert_eq!(question(swap().index_period(0)), Question::Element);
}

#[test]
fn maps_are_checked_and_found() {
    let all = Table::transformations(2).expect("two is a degree");
    assert_eq!(swap().check_map(&all, &[2, 3]), Ok(MapCheck::Holds));
    assert_eq!(swap().check_map(&all, &[2, 2]), Ok(MapCheck::EqualImages { i: 1, j: 2 }));
    assert_eq!(question(swap().check_map(&all, &[2])), Question::MapLength);
    assert_eq!(swap().embeddings(&all).collect::<Vec<_>>(), [[2, 3]]);
    assert_eq!(swap().embeddings_among(&all, |i, j| i != 1 || j == 2).collect::<Vec<_>>(), [[2, 3]]);
    assert_eq!(swap().embeddings_among(&all, |i, j| i != 1 || j == 1).count(), 0);
    assert_eq!(left().isomorphisms(&left()).collect::<Vec<_>>(), [[1, 2], [2, 1]]);
    assert_eq!(left().isomorphisms(&right()).count(), 0);
    assert_eq!(left().reversed_isomorphisms(&right()).collect::<Vec<_>>(), [[1, 2], [2, 1]]);
    assert_eq!(left().reversed_isomorphisms(&left()).count(), 0);
}

#[test]
fn limits_stop_searches() {
    let all = Table::transformations(2).expect("two is a degree");
    assert_eq!(swap().embedding_within(&all, 4), (LimitedSearch::Found { trials: 4 }, Some(vec![2, 3])));
    assert_eq!(swap().embedding_within(&all, 3), (LimitedSearch::Stopped, None));
    assert_eq!(left().isomorphism_within(&right(), 9), (LimitedSearch::None { trials: 0 }, None));
    assert_eq!(left().reversed_isomorphism_within(&right(), 2), (LimitedSearch::Found { trials: 2 }, Some(vec![1, 2])));
}

#[test]
fn parts_copies_and_degrees() {
    let all = Table::transformations(2).expect("two is a degree");
    assert_eq!(all.part(&[3]), Ok(Part { table: swap(), elements: vec![2, 3] }));
    assert_eq!(question(all.part(&[])), Question::Chosen);
    assert_eq!(table(&[1], 1).copies(&all), Copies::Number(3));
    assert_eq!(swap().positions(), Some(vec![vec![1, 2], vec![2, 1]]));
    assert_eq!((swap().degree(), table(&[1], 1).degree()), (Some(2), Some(1)));
    // No three points carry four elements whose products are all the first.
    assert_eq!(table(&[1; 16], 4).degree(), None);
}

/// Any three elements are a copy.
#[test]
fn copies_are_counted_up_to_65_535() {
    let three = left_of_order(3);
    assert_eq!(three.copies(&left_of_order(74)), Copies::Number(74 * 73 * 72 / 6));
    assert_eq!(three.copies(&left_of_order(75)), Copies::More);
}

#[test]
fn names_are_those_of_a_sheet() {
    let names = Names::new(["dim", "say \"hi\""]).expect("these are names");
    assert_eq!(names.text(), b"1,dim\r\n2,\"say \"\"hi\"\"\"\r\n");
    assert_eq!(Names::load(&names.text()), Ok(names.clone()));
    assert_eq!(names.iter().collect::<Vec<_>>(), ["dim", "say \"hi\""]);
    assert_eq!((names.get(0), names.get(2), names.get(3)), (None, Some("say \"hi\""), None));
    assert_eq!(question(Names::new(Vec::<String>::new())), Question::NameNumber { place: 0 });
    assert_eq!(question(Names::new(vec!["a"; 121])), Question::NameNumber { place: 0 });
    assert_eq!(question(Names::new(["a".repeat(40), "b".repeat(41)])), Question::Name { place: 2 });
    assert_eq!(question(Names::new(["a".repeat(300)])), Question::Name { place: 1 });
    assert_eq!(question(Names::new(["é"])), Question::Name { place: 1 });
    assert_eq!(question(Names::load(b"1,a\r\n3,b\r\n")), Question::NameNumber { place: 2 });
    assert_eq!(Names::new(vec!["\"".repeat(40); 120]).map(|names| names.text().len()), Ok(252 + 120 * 85));
}

#[test]
fn a_refusal_is_a_sentence() {
    let refusal = Refusal { side: Some(Side::Target), question: Question::CellRange { cell: 4 } };
    assert_eq!(refusal.to_string(), "the target: cell 4 is no element of the table (question 3)");
    assert_eq!(format!("{refusal:?}"), refusal.to_string());
}

#[test]
fn any_thread_may_ask() {
    fn shared<T: Send + Sync>() {}
    shared::<Table>();
    shared::<Names>();
    shared::<Maps<'static>>();
    shared::<Refusal>();
}
