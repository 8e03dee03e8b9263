//! Stand-in for gix-utils: two names that the original mentions; no case reaches them.
pub mod btoi {
    #[derive(Debug)]
    pub struct ParseIntegerError;
    impl std::fmt::Display for ParseIntegerError {
        fn fmt(&self, f: &mut std::fmt::Formatter<'_>) -> std::fmt::Result {
            f.write_str("stand-in")
        }
    }
    impl std::error::Error for ParseIntegerError {}
    pub fn to_signed(_digits: &[u8]) -> Result<u64, ParseIntegerError> {
        Err(ParseIntegerError)
    }
}
