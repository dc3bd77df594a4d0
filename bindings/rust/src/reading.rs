//! What a file uses, and the maps that need no file.

use crate::bundle::Bundle;
use crate::ffi::{MapHandle, Opened};
use crate::map::CMap;
use crate::names::CMapName;
use crate::options::ParseOptions;
use crate::refusal::Refusal;

impl ParseOptions<'_> {
    /// The map of a name that no file has.
    pub(crate) fn open_without_file(&self, name: CMapName<'_>) -> Result<Option<CMap>, Refusal> {
        let open = |bundle: &mut _| MapHandle::open(name.to_bytes(), bundle, self.most());
        match self.tables().ask(open) {
            Opened::Map(map) => Ok(Some(CMap::of(map))),
            // Identity-H and Identity-V need no file. Only the budget refuses them.
            Opened::Refused => Err(Refusal::over_budget()),
            Opened::Absent => Ok(None),
        }
    }

    /// The names of the files that a file uses, in the order of the uses; `None` if it is outside the
    /// grammar.
    pub fn uses(&self, data: &[u8]) -> Option<Vec<Vec<u8>>> {
        self.tables().ask(|bundle| bundle.uses(data))
    }

    pub(crate) fn tables(&self) -> &Bundle {
        self.bundle.unwrap_or_else(|| Bundle::none())
    }

    pub(crate) fn most(&self) -> u64 {
        self.budget.unwrap_or(u64::MAX)
    }
}

/// Whether a name is Identity-H or Identity-V.
pub(crate) fn is_identity(name: &[u8]) -> bool {
    matches!(CMapName::from_bytes(name), CMapName::IdentityH | CMapName::IdentityV)
}
