//! The Rust package with a library of another version, which accepts everything (tests/python/lies.c): no
//! table is made with it.

use shuntberry::{Refused, STORE_WORDS, Table, TextError, version};

#[test]
fn no_table_is_made() {
    let tables = [
        Table::builder(3).initial([0]).marked([]).steps([]).build(),
        Table::from_store(&[0; STORE_WORDS], 3, 0),
        Table::from_bytes(&[], 0),
        Table::generate(1, 3, 1),
    ];
    for table in tables {
        assert_eq!(table, Err(Refused::OTHER_VERSION));
    }
    let text = "states 1\ninitial 0\nforbidden none\nstep 0 -> 0\nend\n";
    let refused = TextError::Refused(Refused::OTHER_VERSION);
    assert_eq!(Table::from_text(text), Err(refused));
    let own = env!("OWN");
    assert_ne!(version().to_string(), own);
    let said = Refused::OTHER_VERSION.to_string();
    assert!(said.contains(&format!("not of version {own}")), "{said}");
}
