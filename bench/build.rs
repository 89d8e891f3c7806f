// Compiles the reducer in C that the library is compared with, tuned and plain, by the compiler that CC names, or cc.
use std::env;
use std::path::Path;
use std::process::Command;

fn run(program: &str, arguments: &[&str]) {
    let status = Command::new(program).args(arguments).status().unwrap_or_else(|error| panic!("{program}: {error}"));
    assert!(status.success(), "{program} failed");
}

fn main() {
    println!("cargo:rerun-if-changed=incremental.c");
    println!("cargo:rerun-if-env-changed=CC");
    let dir = env::var("OUT_DIR").unwrap();
    let at = |name: &str| Path::new(&dir).join(name).display().to_string();
    let (tuned, plain, archive) = (at("tuned.o"), at("plain.o"), at("libincremental.a"));
    let compiler = env::var("CC").unwrap_or("cc".into());
    for (object, search) in [(&tuned, "-UPLAIN_SEARCH"), (&plain, "-DPLAIN_SEARCH")] {
        let strict = ["-std=c11", "-O2", "-Wall", "-Wextra", "-Werror"];
        run(&compiler, &[&strict[..], &[search, "-c", "incremental.c", "-o", object]].concat());
    }
    run("ar", &["crs", &archive, &tuned, &plain]);
    println!("cargo:rustc-link-search=native={dir}");
    println!("cargo:rustc-link-lib=static=incremental");
}
