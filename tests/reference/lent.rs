//! Lists in memory, between guard elements that no call may touch.

/// So many elements that are not lent stand before each list, and as many behind it. A call that
/// writes 2kn places where a work area has n is still within them.
pub const GUARDS: usize = 256;

/// A list between its guard elements, no two neighbours of which are equal and none of which is 0.
pub fn guarded(list: &[u64]) -> Vec<u64> {
    let guard = |place: usize| 1 + 37 * place as u64 % 251;
    let (before, behind) = ((0..GUARDS).map(guard), (GUARDS..2 * GUARDS).map(guard));
    before.chain(list.iter().copied()).chain(behind).collect()
}

/// A list without its guard elements.
pub fn unguarded<T>(whole: &[T]) -> &[T] {
    &whole[GUARDS..whole.len() - GUARDS]
}

/// A list in memory between its guard elements. The pointer of an empty one may be null.
pub struct Lent<T> {
    whole: Vec<T>,
    null: bool,
}

impl<T: Copy + TryFrom<u64> + Into<u64>> Lent<T> {
    pub fn new(list: &[u64], null: bool) -> Lent<T> {
        let fit = |x: u64| T::try_from(x).unwrap_or_else(|_| panic!("{x} does not fit in an element"));
        Lent { whole: guarded(list).into_iter().map(fit).collect(), null: null && list.is_empty() }
    }

    pub fn len(&self) -> usize {
        self.list().len()
    }

    pub fn start(&mut self) -> *mut T {
        if self.null {
            std::ptr::null_mut()
        } else {
            self.whole.as_mut_ptr().wrapping_add(GUARDS)
        }
    }

    pub fn list(&self) -> &[T] {
        unguarded(&self.whole)
    }

    pub fn list_mut(&mut self) -> &mut [T] {
        let end = self.whole.len() - GUARDS;
        &mut self.whole[GUARDS..end]
    }

    pub fn whole(self) -> Vec<u64> {
        self.whole.into_iter().map(T::into).collect()
    }
}
