//! Links libwumbyra.a. WUMBYRA_LIB_DIR names its folder, and `run` sets it.

fn main() {
    println!("cargo:rerun-if-env-changed=WUMBYRA_LIB_DIR");
    let folder = std::env::var("WUMBYRA_LIB_DIR").expect("set by tests/differential/run");
    println!("cargo:rerun-if-changed={folder}/libwumbyra.a");
    println!("cargo:rustc-link-search=native={folder}");
    println!("cargo:rustc-link-lib=static=wumbyra");
}
