//! The calls through the binding: the symmetric group of degree 3, every refusal that a text or a table can show, views.

use chieftables::{accept, build, check, commutative, measure, read_table, write_table, Refusal, Table};

const S3: &[u8] = b"j i p e1 e2\n1 1 3 0 0\n2 2 2 0 0\n2 1 0 1 0\n";

/// The table of S3 with one word changed.
fn changed(line: usize, place: usize, word: u32) -> Vec<u32> {
    let mut words = build(S3).unwrap().words().to_vec();
    words[8 * line + place] = word;
    words
}

#[test]
fn s3_is_built_written_read_and_checked() {
    assert_eq!(accept(S3), Ok(()));
    assert_eq!(measure(S3), Ok(144));
    let table = build(S3).unwrap();
    assert_eq!(table.words().len(), 112);
    let text = write_table(table.words()).unwrap();
    assert_eq!(text.len(), 258);
    assert!(text.ends_with(b"2 2 2 2 1 0 1 0\n2 2 2 2 2 1 0 0\n"));
    let words = read_table(&text).unwrap();
    assert_eq!(words, table.words());
    assert_eq!(check(S3, &words), Ok(()));
    assert_eq!(Table::checked(S3, words), Ok(table));
}

#[test]
fn c4_is_commutative_and_s3_is_not() {
    assert_eq!(commutative(b"j i p e1 e2\n1 1 2 0 0\n2 2 2 1 0\n2 1 0 0 0\n"), Ok(true));
    assert_eq!(commutative(S3), Ok(false));
    assert_eq!(commutative(b"j i p e1 e2\n1 1 3 0 0\n2 2 2 0 0\n2 1 0 2 0\n"), Err(Refusal::Inconsistent));
}

#[test]
fn views_show_s3() {
    let table = build(S3).unwrap();
    assert_eq!((table.generators(), table.order(), table.levels().count()), (2, 6, 2));
    let degrees: Vec<usize> = table.level(2).unwrap().representations().map(|r| r.degree()).collect();
    assert_eq!(degrees, [1, 1, 2]);
    let last = table.level(2).unwrap().representation(2).unwrap();
    assert_eq!(last.blocks(), [1, 2]);
    let exchange: Vec<usize> = last.generator(2).unwrap().columns().map(|c| c.row).collect();
    assert_eq!(exchange, [1, 0]);
    let below = table.level(1).unwrap().representation(1).unwrap();
    assert_eq!(below.blocks(), [0]);
    let leads = below.generator(2).unwrap();
    assert!(leads.intertwines() && leads.column(0).unwrap().reference == 2);
    assert!(table.level(0).is_none() && table.level(3).is_none());
    assert!(last.generator(0).is_none() && last.generator(3).is_none());
    assert!(table.level(2).unwrap().representation(3).is_none());
}

#[test]
fn refusals_have_numbers_and_sentences() {
    let of = |text: &[u8]| accept(text).unwrap_err().number();
    assert_eq!(of(b""), 11);
    assert_eq!(of(b"j i p e1\n1 1 4 0\n"), 12);
    assert_eq!(of(b"j i p e1\n1 1 16411 0\n"), 13);
    assert_eq!(of(b"j i p e1\n1 1 3 1\n"), 14);
    assert_eq!(build(b"j i p e1 e2\n1 1 3 0 0\n2 2 2 0 0\n2 1 0 2 0\n"), Err(Refusal::Inconsistent));
    assert_eq!(read_table(b"1 0 1 1 0 0 0 0\n"), Err(Refusal::TableForm));
    assert_eq!(write_table(&[1, 2, 3]), Err(Refusal::Lines));
    assert_eq!(check(S3, &[]), Err(Refusal::Lines));
    assert_eq!(check(S3, &changed(13, 7, 1)), Err(Refusal::Relation));
    assert_eq!(check(S3, &changed(3, 4, 1)), Err(Refusal::Intertwiner));
    assert_eq!(check(S3, &changed(9, 7, 0)), Err(Refusal::Separation));
    assert_eq!(check(S3, &build(S3).unwrap().words()[..80]), Err(Refusal::Squares));
    assert_eq!(Refusal::Squares.to_string(), "26: the squares of the degrees do not add up to the order");
    for refusal in Refusal::ALL {
        assert_eq!(Refusal::of(refusal.number()), Some(refusal));
        assert!(!refusal.sentence().is_empty());
    }
    assert_eq!(Refusal::of(17), None);
}
