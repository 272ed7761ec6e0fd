//! The library of Pundewo, a proved Erlang-style process table, for the crate `pundewo` to link.
//!
//! This crate has the archive `libpundewo.a`, or finds it (`build.rs` says where). The functions of the archive are declared in
//! `pundewo`, with a safe interface over them. Here is what the archive says of itself.

#![no_std]
#![deny(missing_docs)]

unsafe extern "C" {
    /// The first byte of a text that ends with a zero: the version, and whether the library was proved.
    pub static pundewo_build: core::ffi::c_char;

    /// The version as a number: 10203 is 1.2.3. It has no effect, and may be called at any time.
    pub safe fn pt_version() -> core::ffi::c_uint;
}

/// The version that the library should have, as [`pt_version`] returns it. `build.rs` refuses another one.
///
/// ```
/// assert_eq!(pundewo_sys::pt_version(), pundewo_sys::VERSION);
/// ```
pub const VERSION: core::ffi::c_uint = 10_000 * digits(env!("CARGO_PKG_VERSION_MAJOR"))
    + 100 * digits(env!("CARGO_PKG_VERSION_MINOR"))
    + digits(env!("CARGO_PKG_VERSION_PATCH"));

/// The number that these digits are.
const fn digits(text: &str) -> core::ffi::c_uint {
    match core::ffi::c_uint::from_str_radix(text, 10) {
        Ok(number) => number,
        Err(_) => panic!("a part of the version is no number"),
    }
}
