//! What is asked for beside the call itself.

use mulkavesh_sys::{MULKAVESH_NO_LEGACY, MULKAVESH_NO_NAMES, MULKAVESH_NO_PRODUCERS};

/// What is written and what is refused; by default all is written and nothing more is refused.
///
/// ```
/// use mulkavesh::Flags;
///
/// let bare = Flags { no_names: true, no_producers: true, ..Flags::default() };
/// assert!(!bare.no_legacy);
/// ```
#[derive(Debug, Clone, Copy, Default, PartialEq, Eq, Hash)]
pub struct Flags {
    /// No names are written, of functions, locals or anything else.
    pub no_names: bool,
    /// No producers are written; else `walrus` 0.28.0 comes to be among them.
    pub no_producers: bool,
    /// Bodies with legacy exceptions (`try`, `catch`, `rethrow`, `delegate`) are refused.
    pub no_legacy: bool,
}

impl Flags {
    /// The number that the library takes.
    pub(crate) fn bits(self) -> u32 {
        u32::from(self.no_names) * MULKAVESH_NO_NAMES
            + u32::from(self.no_producers) * MULKAVESH_NO_PRODUCERS
            + u32::from(self.no_legacy) * MULKAVESH_NO_LEGACY
    }
}
