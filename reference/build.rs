//! With the feature `rattle`, links the archives that HERNGANOW_LIB names (parted by colons).

fn main() {
    println!("cargo:rerun-if-env-changed=HERNGANOW_LIB");
    if std::env::var_os("CARGO_FEATURE_RATTLE").is_some() {
        let archives = std::env::var("HERNGANOW_LIB").expect("HERNGANOW_LIB names the static library");
        for archive in archives.split(':') {
            println!("cargo:rerun-if-changed={archive}");
            println!("cargo:rustc-link-arg={archive}");
        }
    }
}
