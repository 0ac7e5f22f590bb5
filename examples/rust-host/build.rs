// Links libakfelzun.a from the folder that AKFELZUN_LIB names, or from build/ at the repository's top.
fn main() {
    println!("cargo:rerun-if-env-changed=AKFELZUN_LIB");
    let beside = format!("{}/../../build", env!("CARGO_MANIFEST_DIR"));
    let folder = std::env::var("AKFELZUN_LIB").unwrap_or(beside);
    println!("cargo:rerun-if-changed={folder}/libakfelzun.a");
    println!("cargo:rustc-link-search=native={folder}");
    println!("cargo:rustc-link-lib=static=akfelzun");
}
