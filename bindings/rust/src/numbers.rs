//! The refusal numbers of docs/FORMAT.md, "Numbers", by name, and what each says.
//!
//! ```
//! use sarpukten::{numbers, Kind, Rules, StrictTree};
//!
//! let e = StrictTree::from_bytes(b"100644 ", Kind::Sha1, Rules::Present).unwrap_err();
//! assert_eq!((e.number, e.place), (numbers::BROKEN_ENTRY, 0));
//! assert_eq!(numbers::reason(e.number), "an entry cannot be read");
//! ```

macro_rules! numbers {
    ($($name:ident = $number:literal, $reason:literal;)*) => {
        $(#[doc = concat!($reason, ".")] pub const $name: usize = $number;)*

        /// What a number says, in words.
        ///
        /// ```
        /// assert_eq!(sarpukten::numbers::reason(15), "not there");
        /// ```
        pub const fn reason(number: usize) -> &'static str {
            match number {
                $($number => $reason,)*
                _ => "no number of this library",
            }
        }
    };
}

numbers! {
    DONE = 0, "done";
    ID_LENGTH = 1, "the length of ids is neither 20 nor 32";
    BOUND = 2, "a buffer or list is over its bound";
    BROKEN_ENTRY = 3, "an entry cannot be read";
    FEW_RECORDS = 4, "too few records are lent";
    MODE_TEXT = 5, "the mode text is none of the rule set's";
    NAME = 6, "the name is not permitted";
    ORDER = 7, "the entry does not stand after the one before";
    SHORT_OUTPUT = 8, "the output is too short";
    NUL_IN_NAME = 9, "a name to be written has a NUL";
    BAD_RECORD = 10, "a record is not well formed";
    COMMIT_FIELD = 11, "a field of the commit is missing or malformed";
    ACTOR = 12, "author or committer has not the actor form";
    EMPTY_ENCODING = 13, "the encoding is empty";
    LF_IN_ENCODING = 14, "the encoding has an LF";
    NOT_THERE = 15, "not there";
    LONG_NAME = 16, "a name is longer than 4,096 bytes";
    SAME_NAME = 17, "an entry before has this name";
    DOT_GIT = 18, "the name is .git with letters in upper case";
    RULE_SET = 19, "there is no such rule set";
    BAD_TEXT = 20, "a record of the text is malformed";
    NO_MODE_OR_KIND = 23, "a number is no mode or no kind of object";
    NOT_FRAMED = 24, "the bundle is not well framed, or the root id is not of its length";
    ID_TWICE = 25, "an id stands twice in the bundle";
    NO_PATH = 26, "the path has an empty component, or more than 64";
    TOO_DEEP = 27, "folders are nested deeper than 32";
    NO_TREE = 28, "an object is missing from the bundle, or is no tree";
}
