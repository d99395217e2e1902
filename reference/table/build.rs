//! Links the archive that HERNGANOW_LIB names.

fn main() {
    println!("cargo:rerun-if-env-changed=HERNGANOW_LIB");
    let archive = std::env::var("HERNGANOW_LIB").expect("HERNGANOW_LIB names the static library; reference/table/run makes it");
    println!("cargo:rerun-if-changed={archive}");
    println!("cargo:rustc-link-arg={archive}");
}
