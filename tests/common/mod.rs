//! What the tests from outside and the bench share; each of them uses a part.
#![allow(dead_code)]

pub mod files;
pub mod lent;
pub mod uff;
