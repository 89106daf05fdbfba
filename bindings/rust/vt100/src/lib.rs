//! The names of `vt100` 0.18.1 over jeihpal. A program moves over by its `Cargo.toml`:
//!
//! ```toml
//! vt100 = { package = "jeihpal-vt100", path = "CHECKOUT/bindings/rust/vt100" }
//! ```
//!
//! [`jeihpal::vt100`] says what differs.
pub use jeihpal::vt100::*;
