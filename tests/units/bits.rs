//! Bits and bytes in the order of calls, and bytes up to one that a closure picks.

use crate::reader::bcmap::Reader;

#[test]
fn a_call_that_wants_more_bytes_than_are_left_takes_none() {
    let mut reader = Reader::new(&[1, 2, 3]);
    assert_eq!(reader.read_n_bytes(0), None);
    assert_eq!(reader.read_n_bytes(5), None);
    assert_eq!(reader.read_u32(), None);
    assert_eq!(reader.read_bytes(4), None);
    assert_eq!(reader.position(), 0);
}

#[test]
fn a_byte_is_passed_with_its_last_bit() {
    let mut reader = Reader::new(&[1, 2, 3]);
    assert_eq!(reader.read_u16(), Some(0x0102));
    for _ in 0..7 {
        let _bit = reader.read_bit();
    }
    assert_eq!(reader.position(), 2);
    assert!(!reader.at_end());
    assert_eq!(reader.read_bit(), Some(1));
    assert_eq!(reader.position(), 3);
    assert!(reader.at_end());
}

#[test]
fn the_byte_that_ends_is_not_taken() {
    let mut reader = Reader::new(&[1, 2, 3]);
    assert_eq!(reader.eat_until(|byte| byte == 3), [1, 2]);
    assert_eq!(reader.position(), 2);
}
