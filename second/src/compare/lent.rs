//! Memory lent to the library, between guards that it must not touch.

/// Items kept on each side of what is lent.
const GUARD: usize = 8;

/// A lent stretch between two guards.
pub struct Lent<T> {
    all: Vec<T>,
    guard: T,
}

impl<T: Copy + PartialEq> Lent<T> {
    /// A stretch with the given contents, guarded by a pattern.
    pub fn new(contents: &[T], guard: T) -> Lent<T> {
        let mut all = vec![guard; GUARD];
        all.extend_from_slice(contents);
        all.extend([guard; GUARD]);
        Lent { all, guard }
    }

    /// The length that is lent.
    pub fn len(&self) -> usize {
        self.all.len() - 2 * GUARD
    }

    /// The address that is lent.
    pub fn address(&mut self) -> *mut T {
        self.all[GUARD..].as_mut_ptr()
    }

    /// What stands in the stretch.
    pub fn contents(&self) -> &[T] {
        &self.all[GUARD..GUARD + self.len()]
    }

    /// Whether both guards are untouched.
    pub fn is_guarded(&self) -> bool {
        let after = GUARD + self.len();
        let untouched = |items: &[T]| items.iter().all(|item| *item == self.guard);
        untouched(&self.all[..GUARD]) && untouched(&self.all[after..])
    }
}
