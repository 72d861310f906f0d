//! Hands on whether the original's folder is here.
fn main() {
    println!("cargo:rustc-check-cfg=cfg(original_here)");
    println!("cargo:rerun-if-changed=build.rs");
    if std::env::var("DEP_EXTENT_REFS_ORIGINAL_HERE").as_deref() == Ok("1") {
        println!("cargo:rustc-cfg=original_here");
    }
}
