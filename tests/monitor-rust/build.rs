//! Links without a C library and without what a C library's programs start with.

fn main() {
    for word in ["-nostdlib", "-nostartfiles", "-static", "-no-pie"] {
        println!("cargo:rustc-link-arg-bins={word}");
    }
}
