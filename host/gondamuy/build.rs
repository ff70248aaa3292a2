// Links the static library that `rt lib` writes in crates/gondamuy; GONDAMUY_LIB names another folder that holds
// libgondamuy.a.
use std::env;
use std::path::PathBuf;

fn main() {
    let beside = PathBuf::from(env::var("CARGO_MANIFEST_DIR").unwrap()).join("../../crates/gondamuy/out");
    let folder = env::var("GONDAMUY_LIB").map(PathBuf::from).unwrap_or(beside);
    println!("cargo:rustc-link-search=native={}", folder.display());
    println!("cargo:rustc-link-lib=static=gondamuy");
    println!("cargo:rerun-if-env-changed=GONDAMUY_LIB");
    println!("cargo:rerun-if-changed={}", folder.join("libgondamuy.a").display());
}
