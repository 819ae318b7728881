//! The emit program, as document 01 and the readings of it have it.

use oracle::calls::program;

fn input(stated: u32, deck: &[u8], pool: &[u8]) -> Vec<u8> {
    [&stated.to_le_bytes(), deck, pool].concat()
}

#[test]
fn under_four_bytes_is_nothing() {
    for length in 0..4 {
        assert_eq!(program(&[0xff, 0xff, 0xff][..length]), b"");
    }
    assert_eq!(program(&input(0, &[], b"pool")), b"");
}

#[test]
fn sizes() {
    assert_eq!(program(&input(65_537, &[], &[])), b"refused 2 at 0\n");
    assert_eq!(program(&input(u32::MAX, &[0x20], &[])), b"refused 2 at 0\n");
    let pool = vec![0xff; 65_537];
    assert_eq!(program(&input(1, &[0x20], &pool)), b"refused 2 at 0\n");
    assert_eq!(program(&input(1, &[0x20], &pool[1..])), b"null\n");
    // Only a stated length over the limit is too long; one that is merely not there is judged as it arrived.
    assert_eq!(program(&input(65_536, &[0x20], &[])), b"null\n");
}

#[test]
fn a_short_deck_has_no_pool() {
    let scalar = [0x21, 0, 0, 1, 0, 0];
    assert_eq!(program(&input(7, &scalar, &[])), b"refused 4 at 0\n");
    assert_eq!(program(&input(6, &scalar, b"a")), b"a\n");
    assert_eq!(
        program(&input(9, &[0x23, 0, 2, 0, 0x20], &[])),
        b"refused 7 at 5\n"
    );
}

#[test]
fn documents_and_room() {
    assert_eq!(program(&input(2, &[0x20, 0x20], &[])), b"null\n---\nnull\n");
    // Each document after the first is nine bytes: 7281 of them and five bytes are 65,534, one more is too long.
    assert_eq!(program(&input(7_282, &[0x20; 7_282], &[])).len(), 65_534);
    assert_eq!(
        program(&input(7_283, &[0x20; 7_283], &[])),
        b"refused 10 at 0\n"
    );
}
