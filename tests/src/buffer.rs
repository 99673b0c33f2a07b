//! Buffers to lend, filled beforehand with random entries so that an untouched one can be told.

const MARGIN: usize = 8;

/// The lent entries stand between two margins that no call may touch.
#[derive(Clone, Debug, PartialEq)]
pub struct Buffer<T> {
    whole: Vec<T>,
    length: usize,
}

impl<T: Copy + PartialEq> Buffer<T> {
    pub fn filled(length: usize, mut entry: impl FnMut() -> T) -> Buffer<T> {
        let whole = (0..length + 2 * MARGIN).map(|_| entry()).collect();
        Buffer { whole, length }
    }

    /// With these entries lent.
    pub fn holding(entries: &[T], margin: impl FnMut() -> T) -> Buffer<T> {
        let mut buffer = Buffer::filled(entries.len(), margin);
        buffer.lend().copy_from_slice(entries);
        buffer
    }

    pub fn entries(&self) -> &[T] {
        &self.whole[MARGIN..MARGIN + self.length]
    }

    pub fn lend(&mut self) -> &mut [T] {
        &mut self.whole[MARGIN..MARGIN + self.length]
    }

    /// Whether only the first `count` entries may differ from `before`.
    pub fn kept_beyond(&self, count: usize, before: &Buffer<T>) -> bool {
        self.length == before.length
            && self.whole[..MARGIN] == before.whole[..MARGIN]
            && self.whole[MARGIN + count..] == before.whole[MARGIN + count..]
    }
}
