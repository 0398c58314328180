//! Values that change where they lie.
pub use core::mem::*;

// A second panic ends the program: nobody may look at a place from which the value was taken.
struct Taken;

impl Drop for Taken {
    fn drop(&mut self) {
        panic!("a value was taken out and none was put back");
    }
}

/// Takes the value out for `f`, and leaves what `f` gives back. Where `f` panics, the program ends.
#[allow(unsafe_code)]
pub fn replace_with<T, X, R, F: FnOnce(T, X) -> (T, R)>(dest: &mut T, x: X, f: F) -> R {
    let taken = Taken;
    let place: *mut T = dest;
    // SAFETY: `place` holds a value, and is that of a reference which nobody else has. The value is read once and is `f`'s from then on; what `f`
    // gives back is written in its place before the reference is seen again, or else the program ends.
    unsafe {
        let (value, answer) = f(place.read(), x);
        place.write(value);
        forget(taken);
        answer
    }
}
