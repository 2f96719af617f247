//! Links libpq, and libnbd where the feature asks for it.

fn main() {
    println!("cargo:rustc-link-lib=pq");
    if std::env::var_os("CARGO_FEATURE_NBD").is_some() {
        println!("cargo:rustc-link-lib=nbd");
    }
}
