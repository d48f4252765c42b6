// Links libspoonthicket.a from the folder SPOONTHICKET_LIB, else from target/lib of the repository, where tools/library puts it.

fn main() {
    let here = std::env::var("CARGO_MANIFEST_DIR").unwrap();
    let folder = std::env::var("SPOONTHICKET_LIB").unwrap_or(format!("{here}/../target/lib"));
    println!("cargo:rerun-if-env-changed=SPOONTHICKET_LIB");
    println!("cargo:rerun-if-changed={folder}/libspoonthicket.a");
    println!("cargo:rustc-link-search=native={folder}");
    println!("cargo:rustc-link-lib=static=spoonthicket");
}
