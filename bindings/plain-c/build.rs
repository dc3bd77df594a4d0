//! How the shared library is linked: its name, where a file of its kind has one, and what ARM's tables for unwinding name.

fn main() {
    println!("cargo::rerun-if-changed=build.rs");
    let is = |variable: &str, value: &str| std::env::var(variable).is_ok_and(|found| found == value);
    let is_elf = is("CARGO_CFG_TARGET_FAMILY", "unix") && !is("CARGO_CFG_TARGET_VENDOR", "apple");
    if is_elf {
        let major = env!("CARGO_PKG_VERSION_MAJOR");
        println!("cargo::rustc-cdylib-link-arg=-Wl,-soname,libhayro_cmap.so.{major}");
    }
    if is_elf && is("CARGO_CFG_TARGET_ARCH", "arm") {
        println!("cargo::rustc-cdylib-link-arg=-lgcc");
    }
}
