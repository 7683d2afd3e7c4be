//! Stand-in written for this package; this is NOT ironsight's file.
//!
//! protocol/mod.rs declares `pub mod ack;`, ironsight's ack.rs is not in
//! docs/src, and no copied file names anything in it. It stands here
//! because mod.rs is unchanged and rustc looks for it beside mod.rs.
