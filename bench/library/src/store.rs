//! What the stores do.

/// The pairs of a page.
pub type Pairs<'a> = [(&'a [u8], &'a [u8])];

/// The first page that a store allocates.
pub const FIRST: u64 = 2;

/// Pages of pairs that are made and read.
pub trait Pages {
    fn allocate(&mut self, pairs: &Pairs) -> u64;

    /// Copies all pairs of a page into memory that is used again, and answers how many bytes these are.
    fn read(&mut self, page: u64) -> usize;

    fn flush(&mut self);
}

/// Stamped pages, which are changed too. The program knows the stamp of each page, which a change names, and raises.
pub trait Store: Pages {
    /// Appends the value of a key that is there.
    fn value(&mut self, page: u64, key: &[u8], value: &mut Vec<u8>);

    fn set(&mut self, page: u64, key: &[u8], value: &[u8]);

    fn replace(&mut self, page: u64, pairs: &Pairs);
}
