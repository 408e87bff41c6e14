//! The root of the library: ddo's unchanged files, the three copies of clean.rs, and our own stand-ins for what they import
//! from files of ddo that are not at hand.

// ddo's own files, as published.
#[path = "../ddo/src/common.rs"]
mod common;
#[path = "../ddo/src/abstraction/dp.rs"]
mod dp;
#[path = "../ddo/src/abstraction/mdd.rs"]
mod mdd;
#[path = "../ddo/src/implementation/mdd/node_flags.rs"]
mod node_flags;

// The three copies share all traits, so one driver can run each of them.
#[path = "../ddo/src/implementation/mdd/clean.rs"]
pub mod unpatched;
#[path = "../patched/rooms.rs"]
pub mod rooms;
#[path = "../patched/tie.rs"]
pub mod tie;

// Our own part.
pub mod lent;
mod plain;
mod traits;

// The files above import everything from the root.
pub use common::*;
pub use dp::*;
pub use mdd::*;
pub use node_flags::*;
pub use plain::*;
pub use traits::*;
