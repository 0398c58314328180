//! What the exported sources rely on in `rtstd`.
use arrayvec::ArrayVec;
use rtstd::alloc::{AllocError, Global};
use rtstd::boxed::Box;
use rtstd::clone::TryClone;
use rtstd::simd::prelude::u8x16;
use rtstd::string::String;
use rtstd::vec::{CollectIn, Vec};

#[test]
fn vectors_grow_and_shrink_as_told() {
    let mut list = Vec::with_capacity(Global, 2).unwrap();
    assert_eq!(list.capacity(), 2);
    assert_eq!(list.push_within_capacity(1), Ok(()));
    list.push_reserved(2);
    assert_eq!(list.push_within_capacity(3), Err(3));
    list.push(4).unwrap();
    list.insert(1, 9).unwrap();
    list.extend_from_slice(&[5, 6]).unwrap();
    assert_eq!(list.as_slice(), [1, 9, 2, 4, 5, 6]);
    assert_eq!((list.remove(1), list.pop()), (9, Some(6)));
    list.resize(6, 7).unwrap();
    assert_eq!(list.as_slice(), [1, 2, 4, 5, 7, 7]);
    list.truncate(1);
    assert_eq!(list.as_slice(), [1]);
    list.clear();
    assert!(list.is_empty());
    assert_eq!(Vec::from_elem(Global, 3u8, 2), Vec::from_slice(Global, &[3, 3]));
    assert_eq!((1..4).collect_in(Global), Vec::from_slice(Global, &[1, 2, 3]));
    assert!(Vec::from_slice(Global, &[8, 9]).unwrap().into_iter().eq([8, 9]));
}

#[test]
fn want_of_memory_is_answered() {
    assert_eq!(Vec::<u64>::with_capacity(Global, usize::MAX), Err(AllocError));
    assert_eq!(Vec::from_elem(Global, 0u8, usize::MAX), Err(AllocError));
    let mut list = Vec::from_slice(Global, &[1u8]).unwrap();
    assert_eq!(list.reserve(usize::MAX), Err(AllocError));
    assert_eq!(list.resize(usize::MAX, 0), Err(AllocError));
    assert_eq!(list.as_slice(), [1]);
}

#[test]
#[should_panic]
fn more_than_was_reserved_stops() {
    Vec::new(Global).push_reserved(1);
}

#[test]
fn texts_are_made_of_parts() {
    let host = String::from_str(Global, "02").unwrap();
    let text: Result<String, AllocError> = rtstd::format_in!(Global, "bad host {host} of {}", 3);
    assert_eq!(text.unwrap().as_str(), "bad host 02 of 3");
    assert_eq!(String::new(Global).as_str(), "");
}

#[test]
fn boxes_and_copies_keep_their_values() {
    let mut place = Box::new(Global, [1, 2]).unwrap();
    place.as_mut()[0] = 5;
    assert_eq!((*place, place.as_ref()), ([5, 2], &[5, 2]));
    let list: ArrayVec<u8, 4> = [1, 2, 3].into_iter().collect();
    assert_eq!(list.try_clone().unwrap().as_slice(), [1, 2, 3]);
    assert_eq!(rtstd::clone::sure(&list).as_slice(), [1, 2, 3]);
}

#[test]
fn sixteen_bytes_are_compared_at_once() {
    let mut bytes = [7; 16];
    (bytes[0], bytes[5]) = (9, 9);
    let lanes = u8x16::from_array(bytes);
    assert_eq!(lanes.simd_eq(u8x16::splat(9)).to_bitmask(), 0b10_0001);
    assert_eq!(lanes.reverse().simd_eq(u8x16::splat(9)).to_bitmask(), 0b1000_0100_0000_0000);
}
