//! Links the proved static library: the one that TRDP_LIB names, or crates/trdp/out/libtrdp.a of this repository.

use std::env;
use std::path::{Path, PathBuf};

fn main() {
    println!("cargo:rerun-if-env-changed=TRDP_LIB");
    let here = PathBuf::from(env::var("CARGO_MANIFEST_DIR").expect("set by cargo"));
    let library = env::var("TRDP_LIB").map_or(here.join("../crates/trdp/out/libtrdp.a"), PathBuf::from);
    assert!(library.exists(), "{} is not there: run `rt lib` in crates/trdp first", library.display());
    let folder = library.parent().unwrap_or(Path::new("."));
    println!("cargo:rerun-if-changed={}", library.display());
    println!("cargo:rustc-link-search=native={}", folder.display());
    println!("cargo:rustc-link-lib=static=trdp");
}
