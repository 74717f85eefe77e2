//! Passes on whether the packages below have Miralis's text: without it there is nothing of theirs to call.

fn main() {
    println!("cargo::rustc-check-cfg=cfg(have_miralis)");
    println!("cargo::rerun-if-changed=build.rs");
    if ["MIRALIS_TEXT", "MIRALIS_TEXT_CHECKED"].iter().all(|n| std::env::var_os(format!("DEP_{n}_HAVE")).is_some()) {
        println!("cargo::rustc-cfg=have_miralis");
    }
}
