//! Has the toolchain prove the printing program's call and write `libprint_call.a`, and links that.
//!
//! No two runs of the toolchain meet: cargo starts this one when that of `nokchbem` has ended, since
//! this crate depends on it and it links a library.

#[path = "../staticlib.rs"]
mod staticlib;

fn main() {
    staticlib::link("print_call", "print_call");
}
