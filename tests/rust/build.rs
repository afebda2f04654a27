// Links the static library that tools/build.sh leaves in target/staticlib.
fn main() {
    let dir = std::env::var("CARGO_MANIFEST_DIR").unwrap();
    println!("cargo:rustc-link-search=native={dir}/../../target/staticlib");
    println!("cargo:rustc-link-lib=static=export");
    println!("cargo:rerun-if-changed={dir}/../../target/staticlib/libexport.a");
}
