//! The text's lib.rs, unchanged, is the module `text`. It loads map.rs and cache/key_pointers.rs, unchanged, and the
//! stand-ins beside them. The names below are those that the text reaches through `crate::`.
include!(concat!(env!("OUT_DIR"), "/root.rs"));

pub(crate) use text::queue as item;
pub use text::*;

/// The three files, for the list's header.
pub const FILES: [(&str, &[u8]); 3] = [
    ("lib.rs", include_bytes!(concat!(env!("OUT_DIR"), "/src/lib.rs"))),
    ("map.rs", include_bytes!(concat!(env!("OUT_DIR"), "/src/map.rs"))),
    ("key_pointers.rs", include_bytes!(concat!(env!("OUT_DIR"), "/src/cache/key_pointers.rs"))),
];
