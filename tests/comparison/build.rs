//! Links the static library that `rt lib` writes in crates/bucketmonk_c.
fn main() {
    let root = std::env::var("CARGO_MANIFEST_DIR").expect("the manifest's directory");
    let folder = format!("{root}/../../crates/bucketmonk_c/out");
    println!("cargo:rerun-if-changed={folder}/libbucketmonk_c.a");
    println!("cargo:rustc-link-search=native={folder}");
    println!("cargo:rustc-link-lib=static=bucketmonk_c");
}
