// Links the static library that `rt lib` writes in the folder of words_measured.
fn main() {
    let root = std::path::Path::new(env!("CARGO_MANIFEST_DIR")).join("../crates/words_measured/out");
    println!("cargo:rustc-link-search=native={}", root.display());
    println!("cargo:rustc-link-lib=static=words_measured");
    println!("cargo:rerun-if-changed={}", root.display());
}
