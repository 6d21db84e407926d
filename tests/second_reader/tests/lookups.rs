//! What lookups show about the entry that counts is told right, since a run is judged by it.

use second_reader::generate::list::{image, Element};
use second_reader::generate::setting::{entry, string};
use second_reader::lookups::{self, Shown};
use Element::{Int, List};

fn shown(guest: &[Element], house: &[Element], key: &[u8]) -> Vec<Shown> {
    lookups::shown(&image(guest), &image(house), key)
}

#[test]
fn found() {
    let (a, b) = (entry(b"a", b"1"), entry(b"b", b"2"));
    let another = entry(b"a", b"3");
    assert_eq!(shown(&[a.clone()], &[b.clone()], b"a"), []);
    assert_eq!(shown(&[a.clone()], &[b.clone()], b"b"), []);
    assert_eq!(shown(&[a.clone()], &[b.clone(), a.clone()], b"a"), [Shown::GuestFirst]);
    for [guest, house] in [[&[a.clone(), another.clone()][..], &[]], [&[], &[a.clone(), another]]] {
        assert_eq!(shown(guest, house, b"a"), [Shown::FirstEntry]);
    }
    // The same value twice does not tell the first from the last.
    assert_eq!(shown(&[a.clone(), a.clone()], &[], b"a"), []);
    for other in [
        string(b"a"),
        List(vec![string(b"a")]),
        List(vec![string(b"a"), string(b"1"), string(b"1")]),
        List(vec![Int(1), a.clone()]),
    ] {
        let before = [other.clone(), a.clone()];
        assert_eq!(shown(&before, &[], b"a"), [Shown::BehindOther]);
        assert_eq!(shown(&[], &before, b"a"), [Shown::BehindOther]);
        assert_eq!(shown(&[a.clone(), other.clone()], &[], b"a"), []);
        assert_eq!(shown(&[other], &[a.clone()], b"a"), []);
    }
    // Entries with another key do not have the key.
    assert_eq!(shown(&[entry(b"b", b"a"), a.clone()], &[], b"a"), []);
    assert_eq!(shown(&[], &[entry(b"", b"1")], b""), [Shown::EmptyKey]);
    assert_eq!(shown(&[entry(b"a", b"")], &[], b"a"), [Shown::EmptyValue]);
}

#[test]
fn in_neither() {
    let list = [entry(b"lamp", b"on")];
    for [guest, house] in [[&list[..], &[]], [&[], &list[..]]] {
        assert_eq!(shown(guest, house, b"door"), []);
        assert_eq!(shown(guest, house, b"on"), [Shown::OnlyValue]);
        assert_eq!(shown(guest, house, b"lam"), [Shown::Beginning]);
        assert_eq!(shown(guest, house, b""), [Shown::Beginning]);
        assert_eq!(shown(guest, house, b"lamps"), [Shown::Longer]);
        assert_eq!(shown(guest, house, b"lamp\0s"), [Shown::LongerByZero]);
        assert_eq!(shown(guest, house, b"\0lamp"), []);
    }
    for other in [string(b"a"), List(vec![string(b"b"), string(b"a"), Int(1)])] {
        assert_eq!(shown(&[other.clone()], &[], b"a"), [Shown::OnlyOther]);
        assert_eq!(shown(&[], &[Int(1), other], b"a"), [Shown::OnlyOther]);
    }
}

#[test]
fn refused() {
    let (good, bad) = (image(&[entry(b"a", b"1")]), [0; 4]);
    let more = [&good[..], &[0]].concat();
    for wrong in [&bad[..], &more, &[]] {
        assert_eq!(lookups::shown(&good, wrong, b"a"), [Shown::HouseRefused]);
        assert_eq!(lookups::shown(&good, wrong, b"b"), []);
        assert_eq!(lookups::shown(wrong, &good, b"a"), []);
        assert_eq!(lookups::shown(wrong, &more, b"a"), [Shown::BothRefused]);
    }
}
