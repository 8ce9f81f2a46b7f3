//! The versions of a checked list.

use std::iter::FusedIterator;

use crate::room::VERSION;

/// A version, by its entity and its time.
#[derive(Clone, Copy, Debug, PartialEq, Eq, Hash)]
pub struct Version {
    pub entity: u32,
    pub time: u64,
}

/// The versions of a list, as the answer has them: under a log's commitment that is by rising time. Only [`check_span`](crate::check_span) makes
/// one, from what the check wrote; so every version is whole, and the iterator never panics.
#[derive(Clone, Debug)]
pub struct Versions<'a> {
    list: &'a [[u8; VERSION]],
}

impl<'a> Versions<'a> {
    /// A checked list.
    pub(crate) fn new(list: &'a [u8]) -> Self {
        Versions { list: list.as_chunks().0 }
    }

    /// The versions that are left, as the check wrote them: entity and time of each, big-endian, in 12 bytes.
    pub fn as_bytes(&self) -> &'a [u8] {
        self.list.as_flattened()
    }
}

impl Iterator for Versions<'_> {
    type Item = Version;

    fn next(&mut self) -> Option<Version> {
        let (first, rest) = self.list.split_first()?;
        self.list = rest;
        let [e0, e1, e2, e3, time @ ..] = *first;
        Some(Version { entity: u32::from_be_bytes([e0, e1, e2, e3]), time: u64::from_be_bytes(time) })
    }

    fn size_hint(&self) -> (usize, Option<usize>) {
        (self.list.len(), Some(self.list.len()))
    }
}

impl ExactSizeIterator for Versions<'_> {}

impl FusedIterator for Versions<'_> {}

#[cfg(test)]
mod tests {
    use super::*;

    #[test]
    fn a_version_is_read_from_its_12_bytes() {
        let bytes: Vec<u8> = (1..=24).collect();
        let mut versions = Versions::new(&bytes);
        assert_eq!((versions.len(), versions.as_bytes()), (2, &bytes[..]));
        assert_eq!(versions.next(), Some(Version { entity: 0x0102_0304, time: 0x0506_0708_090a_0b0c }));
        assert_eq!((versions.len(), versions.as_bytes()), (1, &bytes[12..]));
        assert_eq!(versions.clone().count(), 1);
        assert_eq!(versions.next(), Some(Version { entity: 0x0d0e_0f10, time: 0x1112_1314_1516_1718 }));
        assert_eq!((versions.next(), versions.next(), versions.len()), (None, None, 0));
    }
}
