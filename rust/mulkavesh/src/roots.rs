//! Which exports stay.

/// Which exports stay, by NAMEs; by default all.
///
/// In a NAME `*` stands for any bytes, also for none, and `\*` for a star. Each has to fit an export
/// of the module: [`Error::Unfit`](crate::Error::Unfit) says which doesn't. The start function and
/// segments that aren't passive keep what they reach all the same.
///
/// ```
/// use mulkavesh::Roots;
///
/// let roots = Roots { keep: &["main", "wasi_*"], ..Roots::default() };
/// assert!(roots.drop.is_empty());
/// ```
#[derive(Debug, Clone, Copy, Default, PartialEq, Eq, Hash)]
pub struct Roots<'a> {
    /// Where there are any, the exports go that none of these fits.
    pub keep: &'a [&'a str],
    /// Of those that stay then, the exports go that one of these fits.
    pub drop: &'a [&'a str],
}

impl<'a> Roots<'a> {
    /// The NAME of this number, where `keep` comes first, if there is one.
    pub(crate) fn name(self, number: usize) -> Option<&'a str> {
        self.keep.iter().chain(self.drop).nth(number).copied()
    }
}

#[cfg(test)]
mod tests {
    use super::*;

    #[test]
    fn names_are_numbered() {
        let roots = Roots {
            keep: &["a", "b"],
            drop: &["c"],
        };
        let found = [0, 1, 2, 3, usize::MAX].map(|number| roots.name(number));
        assert_eq!(found, [Some("a"), Some("b"), Some("c"), None, None]);
        assert_eq!(Roots::default().name(0), None);
    }
}
