//! Links Debian's zlib, where it is installed.

use std::path::Path;

fn main() {
    println!("cargo:rustc-check-cfg=cfg(zlib)");
    if Path::new("/usr/include/zlib.h").exists() {
        println!("cargo:rustc-link-lib=z");
        println!("cargo:rustc-cfg=zlib");
    }
}
