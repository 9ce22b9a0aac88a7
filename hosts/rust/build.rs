//! Tells the linker where the archive stands: the folder named by `BLISKORU_ARCHIVE`, or the repository's `crates/bliskoru/out`.

use std::env;
use std::path::PathBuf;

fn main() {
    let named = env::var_os("BLISKORU_ARCHIVE").map(PathBuf::from);
    let package = PathBuf::from(env::var_os("CARGO_MANIFEST_DIR").unwrap_or_default());
    let own = || package.join("../../crates/bliskoru/out");
    let folder = named.unwrap_or_else(own);
    println!("cargo:rustc-link-search=native={}", folder.display());
    println!("cargo:rustc-link-lib=static=bliskoru");
    println!("cargo:rerun-if-env-changed=BLISKORU_ARCHIVE");
    println!("cargo:rerun-if-changed={}", folder.join("libbliskoru.a").display());
}
