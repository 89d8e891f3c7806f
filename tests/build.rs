// Links the archive that GAMBROLT_LIB_DIR names, or the one that `make lib` puts into target/staticlib.
use std::env;
use std::path::PathBuf;

fn main() {
    println!("cargo:rerun-if-env-changed=GAMBROLT_LIB_DIR");
    let beside = PathBuf::from(env::var("CARGO_MANIFEST_DIR").unwrap()).join("../target/staticlib");
    let dir = env::var("GAMBROLT_LIB_DIR").map(PathBuf::from).unwrap_or(beside);
    println!("cargo:rerun-if-changed={}", dir.join("libgambrolt.a").display());
    println!("cargo:rustc-link-search=native={}", dir.display());
    println!("cargo:rustc-link-lib=static=gambrolt");
}
