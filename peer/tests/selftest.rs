//! `peer test` with a small count, which still meets every boundary file.

#[test]
fn generated_files() {
    let tally = peer::selftest::test(1700);
    assert_eq!(tally.failed, 0, "{:#?}", tally.failures);
}
