//! Ids through the bindings.
use sarpukten::{Kind, ObjectId};

#[test]
fn digits_and_back() {
    for kind in [Kind::Sha1, Kind::Sha256] {
        // Every byte stands at some place of some id.
        for first in 0..=255u8 {
            let bytes: Vec<u8> = (0..kind.len_in_bytes()).map(|i| first.wrapping_add(i as u8)).collect();
            let lower: String = bytes.iter().map(|b| format!("{b:02x}")).collect();
            let id = ObjectId::from_bytes(&bytes).unwrap();
            assert_eq!((id.to_string(), id.kind(), id.as_slice()), (lower.clone(), kind, &bytes[..]));
            assert_eq!(ObjectId::from_hex(lower.as_bytes()), Some(id));
            assert_eq!(ObjectId::from_hex(lower.to_uppercase().as_bytes()), Some(id));
            assert_eq!(format!("{id:?}"), format!("ObjectId({lower})"));
        }
    }
}

#[test]
fn no_ids() {
    for len in (0..130).chain([4096]) {
        assert_eq!(ObjectId::from_hex(&vec![b'a'; len]).map(|id| id.kind().len_in_hex()), (len == 40 || len == 64).then_some(len));
        assert_eq!(ObjectId::from_bytes(&vec![7; len]).is_some(), len == 20 || len == 32);
    }
    for len in [40, 64] {
        for at in [0, 1, len / 2, len - 1] {
            for byte in 0..=255u8 {
                let mut digits = vec![b'0'; len];
                digits[at] = byte;
                assert_eq!(ObjectId::from_hex(&digits).is_some(), byte.is_ascii_hexdigit());
            }
        }
    }
}
