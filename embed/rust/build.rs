//! Links `libr2u2.a` and `libr2u2_heap.a`, or with the feature `arena` `libr2u2_arena.a`, from the folder that
//! `R2U2_LIBRARIES` names, otherwise from `/usr/local/lib`.
fn main() {
    let folder = std::env::var("R2U2_LIBRARIES").unwrap_or_else(|_| "/usr/local/lib".to_string());
    println!("cargo:rustc-link-search=native={folder}");
    println!("cargo:rustc-link-lib=static=r2u2");
    let memory = if std::env::var_os("CARGO_FEATURE_ARENA").is_some() { "r2u2_arena" } else { "r2u2_heap" };
    println!("cargo:rustc-link-lib=static={memory}");
    println!("cargo:rerun-if-env-changed=R2U2_LIBRARIES");
    println!("cargo:rerun-if-changed={folder}/libr2u2.a");
}
