//! Stand-in for gix-features: two names that the original mentions; no case reaches them.
pub mod progress {
    pub trait Progress {}
    pub struct Discard;
    impl Progress for Discard {}
}
