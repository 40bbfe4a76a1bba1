//! Says where libtiff's writer is, which is linked in for the bench. The library comes with the package over it.

/// libtiff stands behind libtiff.c: a linker may leave out a library that nothing before it asks for.
fn main() {
    println!("cargo:rerun-if-env-changed=COMPARE_LIBTIFF");
    if std::env::var_os("CARGO_FEATURE_LIBTIFF").is_none() {
        return;
    }
    let object = std::env::var("COMPARE_LIBTIFF").expect("COMPARE_LIBTIFF names libtiff.c, compiled");
    println!("cargo:rerun-if-changed={object}");
    println!("cargo:rustc-link-arg-bins={object}");
    println!("cargo:rustc-link-arg-bins=-ltiff");
}
