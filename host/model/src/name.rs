//! Names as callers write them.

use crate::record::StoredName;
use crate::refusal::Refusal;

/// The most syllables in a name.
pub const MAX_SYLLABLES: usize = 8;

/// A well-written name: "/" or 1 to 8 syllables, each after one "/".
#[derive(Clone, Copy, Debug)]
pub struct Name<'n> {
    /// What follows the first "/"; empty for the root.
    rest: &'n [u8],
}

impl<'n> Name<'n> {
    pub fn parse(bytes: &'n [u8]) -> Result<Name<'n>, Refusal> {
        let rest = bytes.strip_prefix(b"/").ok_or(Refusal::BadName)?;
        let name = Name { rest };
        let mut count = 0;
        for syllable in name.syllables() {
            count += 1;
            let fits = (1..=StoredName::SIZE).contains(&syllable.len());
            if count > MAX_SYLLABLES || !fits || syllable.contains(&0) {
                return Err(Refusal::BadName);
            }
        }
        Ok(name)
    }

    /// The syllables from the left; none for the root.
    pub fn syllables(self) -> impl Iterator<Item = &'n [u8]> {
        let parts = if self.rest.is_empty() { 0 } else { usize::MAX };
        self.rest.split(|&b| b == b'/').take(parts)
    }

    /// The name but its last syllable, and the last; none for the root.
    pub fn split_last(self) -> Option<(Name<'n>, &'n [u8])> {
        match self.rest.iter().rposition(|&b| b == b'/') {
            _ if self.rest.is_empty() => None,
            None => Some((Name { rest: &[] }, self.rest)),
            Some(at) => Some((
                Name {
                    rest: &self.rest[..at],
                },
                &self.rest[at + 1..],
            )),
        }
    }
}

#[cfg(test)]
mod tests {
    use super::*;

    fn count(name: &[u8]) -> Option<usize> {
        Name::parse(name).ok().map(|n| n.syllables().count())
    }

    /// P8.
    #[test]
    fn syllables() {
        assert_eq!(count(b"/"), Some(0));
        assert_eq!(count(b"/a/b"), Some(2));
        for bad in ["", "a", "/a/", "//a", "//", "/a//b", "a/b"] {
            assert_eq!(count(bad.as_bytes()), None, "{bad}");
        }
        assert_eq!(count(b"/abcdefghijklmn"), Some(1));
        assert_eq!(count(b"/abcdefghijklmno"), None);
        assert_eq!(count(b"/a/b\0c"), None);
        assert_eq!(count(b"/./.."), Some(2));
        assert_eq!(count(b"/1/2/3/4/5/6/7/8"), Some(8));
        assert_eq!(count(b"/1/2/3/4/5/6/7/8/9"), None);
    }

    #[test]
    fn last_syllable() {
        let split = |name: &'static [u8]| Name::parse(name).unwrap().split_last();
        assert!(split(b"/").is_none());
        let (way, last) = split(b"/a").unwrap();
        assert_eq!((way.rest, last), (&b""[..], &b"a"[..]));
        let (way, last) = split(b"/a/bc/d").unwrap();
        assert_eq!((way.rest, last), (&b"a/bc"[..], &b"d"[..]));
    }
}
