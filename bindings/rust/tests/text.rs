//! Trees as text through the bindings.
use sarpukten::{tree_to_text, Kind, Rules};

fn tree(kind: Kind) -> Vec<u8> {
    let mut data = Vec::new();
    for (i, front) in ["100644 a\tb\n", "100755 b\"", "120000 c\u{ff}", "160000 d", "40000 e"].iter().enumerate() {
        data.extend_from_slice(front.as_bytes());
        data.push(0);
        data.extend(vec![0xa0 + i as u8; kind.len_in_bytes()]);
    }
    data
}

#[test]
fn each_sort_of_entry() {
    for kind in [Kind::Sha1, Kind::Sha256] {
        let id = |i: usize| format!("{:02x}", 0xa0 + i).repeat(kind.len_in_bytes());
        let right = format!(
            "100644 blob {}\ta\tb\n\0100755 blob {}\tb\"\0120000 blob {}\tc\u{ff}\0160000 commit {}\td\0040000 tree {}\te\0",
            id(0),
            id(1),
            id(2),
            id(3),
            id(4)
        );
        assert_eq!(tree_to_text(&tree(kind), kind, Rules::Present).unwrap(), right.as_bytes());
    }
    assert_eq!(tree_to_text(&[], Kind::Sha1, Rules::Present).unwrap(), b"");
}

#[test]
fn what_is_not_strict() {
    let early = [&b"100664 a\0"[..], &[7; 20]].concat();
    assert_eq!(tree_to_text(&early, Kind::Sha1, Rules::Early).unwrap(), [&b"100664 blob "[..], &b"07".repeat(20), b"\ta\0"].concat());
    let e = tree_to_text(&early, Kind::Sha1, Rules::Present).unwrap_err();
    assert_eq!((e.number, e.place, e.part), (5, 0, 0));
    let twice = [&early[..], &early].concat();
    let e = tree_to_text(&twice, Kind::Sha1, Rules::Early).unwrap_err();
    assert_eq!((e.number, e.place, e.part), (7, 29, 0));
    let e = tree_to_text(&early[..28], Kind::Sha1, Rules::Early).unwrap_err();
    assert_eq!((e.number, e.place, e.part), (3, 0, 3));
}
