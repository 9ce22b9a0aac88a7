//! Links the library's archive, which is that of `rt lib` in crates/bliskoru on x86-64 and that of `bench/native`
//! elsewhere, and the two C programs beside it, which are compiled here.

use std::path::Path;
use std::process::Command;

fn run(program: &str, words: &[&str]) {
    let status = Command::new(program).args(words).status();
    assert!(status.is_ok_and(|status| status.success()), "{program} {words:?}");
}

fn main() {
    let bench = Path::new(env!("CARGO_MANIFEST_DIR"));
    let x86_64 = std::env::var("CARGO_CFG_TARGET_ARCH").is_ok_and(|name| name == "x86_64");
    let folder = bench.join(if x86_64 { "../crates/bliskoru/out" } else { "target/native" });
    println!("cargo:rustc-link-search=native={}", folder.display());
    println!("cargo:rustc-link-lib=static=bliskoru");
    println!("cargo:rerun-if-changed={}", folder.join("libbliskoru.a").display());

    let out = std::env::var("OUT_DIR").expect("cargo names the folder");
    println!("cargo:rustc-link-search=native={out}");
    for name in ["plain", "limit"] {
        let (object, archive) = (format!("{out}/{name}.o"), format!("{out}/lib{name}.a"));
        let source = bench.join(format!("{name}.c"));
        let source = source.to_str().expect("a path in UTF-8");
        run("gcc", &["-std=c99", "-O3", "-g1", "-Wall", "-Wextra", "-Werror", "-c", source, "-o", &object]);
        run("ar", &["rcs", &archive, &object]);
        println!("cargo:rustc-link-lib=static={name}");
    }
    for name in ["plain.c", "limit.c", "pricing.h", "sides.h"] {
        println!("cargo:rerun-if-changed={}", bench.join(name).display());
    }
}
