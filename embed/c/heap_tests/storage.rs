//! The heap and the vectors below the C library, which are unsafe inside: what they promise, on memory of exactly their size.
use arrayvec::ArrayVec;
use rtstd::alloc::{AllocError, Global};
use rtstd::boxed::Box;
use rtstd::vec::{CollectIn, Vec};
use std::ptr::NonNull;

/// Runs something over a heap of so many bytes, which lies between others that must stay as they are.
fn over(size: usize, act: impl FnOnce(Global)) {
    let words = size.div_ceil(8);
    let mut memory = vec![0xA5A5_A5A5_A5A5_A5A5u64; words + 2];
    let first = NonNull::new(unsafe { memory.as_mut_ptr().add(1) }).unwrap();
    // SAFETY: the words between the first and the last one are this heap's alone, as long as `act` runs.
    act(unsafe { Global::over(first.cast(), size) }.unwrap());
    assert_eq!((memory[0], memory[words + 1]), (0xA5A5_A5A5_A5A5_A5A5, 0xA5A5_A5A5_A5A5_A5A5));
}

#[test]
fn a_heap_gives_what_it_has_and_no_more() {
    over(64, |heap| {
        assert_eq!(heap.used(), 16);
        let bytes = Vec::from_elem(heap, 7u8, 3).unwrap();
        assert_eq!(heap.used(), 19);
        let numbers = Vec::from_slice(heap, &[1u64, 2, 3, 4, 5]).unwrap();
        assert_eq!(heap.used(), 64);
        assert_eq!(Vec::from_elem(heap, 0u8, 1), Err(AllocError));
        assert_eq!(Vec::<u64>::with_capacity(heap, usize::MAX).err(), Some(AllocError));
        assert_eq!((bytes.as_slice(), numbers.as_slice()), (&[7, 7, 7][..], &[1, 2, 3, 4, 5][..]));
    });
    let mut word = 0u64;
    // SAFETY: the word is this heap's alone.
    assert!(unsafe { Global::over(NonNull::from(&mut word).cast(), 8) }.is_none());
}

#[test]
fn a_closed_heap_gives_nothing() {
    over(64, |heap| {
        let mut list = Vec::with_capacity(heap, 2).unwrap();
        heap.close();
        assert_eq!(list.push(1u8), Ok(()));
        assert_eq!(list.push(2), Ok(()));
        assert_eq!(list.push(3), Err(AllocError));
        assert_eq!(list.as_slice(), [1, 2]);
    });
}

#[test]
fn vectors_grow_and_shrink_as_told() {
    over(4096, |heap| {
        let mut list = Vec::new(heap);
        for number in 0..100u16 {
            list.push(number).unwrap();
        }
        assert!(list.iter().copied().eq(0..100));
        assert_eq!((list.pop(), list.len()), (Some(99), 99));
        list.truncate(2);
        list.extend_from_slice(&[7, 8]).unwrap();
        list.resize(6, 9).unwrap();
        assert_eq!(list.as_slice(), [0, 1, 7, 8, 9, 9]);
        list.resize(1, 0).unwrap();
        list.as_mut_slice()[0] = 5;
        assert_eq!(list.as_slice(), [5]);
        list.clear();
        assert_eq!(list.pop(), None);
        let mut full = Vec::with_capacity(heap, 1).unwrap();
        assert_eq!((full.push_within_capacity(1), full.push_within_capacity(2), full.capacity()), (Ok(()), Err(2), 1));
        assert_eq!((3..6).collect_in(heap).unwrap().as_slice(), [3, 4, 5]);
        let mut place = Box::new(heap, [1, 2]).unwrap();
        place.as_mut()[0] = 4;
        assert_eq!(*place, [4, 2]);
    });
}

#[test]
fn bounded_vectors_do_as_those_of_arrayvec() {
    let mut list: ArrayVec<u8, 6> = [1, 2, 3].into_iter().collect();
    list.insert(1, 9);
    list.insert(4, 8);
    assert_eq!(list.as_slice(), [1, 9, 2, 3, 8]);
    assert_eq!((list.remove(0), list.pop_at(1), list.pop_at(3), list.pop()), (1, Some(2), None, Some(8)));
    assert_eq!((list.as_slice(), list.remaining_capacity(), list.capacity()), (&[9, 3][..], 4, 6));
    assert!(list.try_extend_from_slice(&[4; 5]).is_err());
    list.try_extend_from_slice(&[4, 5, 6, 7]).unwrap();
    assert!(list.is_full() && list.try_push(1).is_err());
    list.retain(|value| *value % 2 == 1);
    assert_eq!(list.as_slice(), [9, 3, 5, 7]);
    assert_eq!(list.clone().into_iter().map(u32::from).sum::<u32>(), 24);
    list.truncate(9);
    list.truncate(1);
    assert_eq!((&list).into_iter().collect::<std::vec::Vec<_>>(), [&9]);
    list.clear();
    assert!(list.is_empty() && list.pop().is_none() && ArrayVec::<u8, 0>::new().is_full());
}

#[test]
#[should_panic]
fn a_full_bounded_vector_takes_nothing() {
    ArrayVec::<u8, 0>::new().push(1);
}
