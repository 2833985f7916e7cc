//! Stand-in: the queue is no part of this build. The text names item.rs as `super::item` and as `crate::item`; this module
//! passes the second on.
#![allow(missing_docs)]
pub(crate) use super::item::*;
