//! Stand-in for the editor: empty but for three windows into what the crate keeps to itself.
use super::EntryMode;

/// The mode with exactly these bits.
pub fn mode(internal: u16) -> EntryMode {
    EntryMode { internal }
}
/// The bits of a mode.
pub fn bits(mode: EntryMode) -> u16 {
    mode.internal
}
/// `EntryMode::extract_from_bytes`, the rest given as the place where it begins.
pub fn mode_text(i: &[u8]) -> Option<(u16, usize)> {
    EntryMode::extract_from_bytes(i).map(|(mode, rest)| (mode.internal, i.len() - rest.len()))
}
