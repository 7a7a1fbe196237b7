//! Memory that is lent to a call, between entries that must stand.

const EDGE: usize = 8;

pub struct Lent<T> {
    all: Vec<T>,
    was: Vec<T>,
}

impl<T: Copy + PartialEq> Lent<T> {
    /// `n` entries, and the edges, each as `fill` gives it.
    pub fn new(n: usize, mut fill: impl FnMut() -> T) -> Lent<T> {
        let all: Vec<T> = (0..n + 2 * EDGE).map(|_| fill()).collect();
        Lent { was: all.clone(), all }
    }
    /// A copy of `list`.
    pub fn of(list: &[T], edge: T) -> Lent<T> {
        let mut lent = Lent::new(list.len(), || edge);
        lent.now_mut().copy_from_slice(list);
        lent.keep();
        lent
    }
    pub fn pointer(&mut self) -> *mut T {
        unsafe { self.all.as_mut_ptr().add(EDGE) }
    }
    pub fn len(&self) -> usize {
        self.all.len() - 2 * EDGE
    }
    pub fn is_empty(&self) -> bool {
        self.len() == 0
    }
    pub fn now(&self) -> &[T] {
        &self.all[EDGE..self.all.len() - EDGE]
    }
    pub fn now_mut(&mut self) -> &mut [T] {
        let end = self.all.len() - EDGE;
        &mut self.all[EDGE..end]
    }
    /// What it held when it was made, or since the last `keep`.
    pub fn was(&self) -> &[T] {
        &self.was[EDGE..self.was.len() - EDGE]
    }
    pub fn keep(&mut self) {
        self.was.clone_from(&self.all);
    }
    pub fn stands(&self) -> bool {
        self.all == self.was
    }
    pub fn edges_stand(&self) -> bool {
        let end = self.all.len() - EDGE;
        self.all[..EDGE] == self.was[..EDGE] && self.all[end..] == self.was[end..]
    }
}
