//! Has the toolchain prove the library and write `libnokchbem.a`, and links that.

#[path = "../staticlib.rs"]
mod staticlib;

fn main() {
    staticlib::link("nokchbem_c", "nokchbem");
}
