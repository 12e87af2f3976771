// Links the static libraries that run.sh has `rt lib` write, and copies.
fn main() {
    let here = std::env::var("CARGO_MANIFEST_DIR").unwrap();
    println!("cargo:rustc-link-search=native={here}/../target/staticlib");
    println!("cargo:rustc-link-lib=static=root");
    println!("cargo:rustc-link-lib=static=geometry_export");
    println!("cargo:rustc-link-lib=static=edit_export");
    println!("cargo:rustc-link-lib=static=run_export");
    println!("cargo:rustc-link-lib=static=files_export");
    println!("cargo:rustc-link-lib=static=table_export");
    println!("cargo:rerun-if-changed=../target/staticlib");
}
