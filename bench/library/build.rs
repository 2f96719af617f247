fn main() {
    println!("cargo:rustc-link-lib=lmdb");
}
