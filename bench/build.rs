//! Links the archive that `rt lib` makes in crates/gillgrater. Its functions are moved to the start of a cache line: where a tight loop falls in
//! the linked program changes its time by up to a third, and would change it with every edit of this program.

use std::path::Path;
use std::process::Command;

fn main() {
    let made = concat!(env!("CARGO_MANIFEST_DIR"), "/../crates/gillgrater/out/libgillgrater.a");
    let folder = std::env::var("OUT_DIR").expect("cargo gives a folder");
    let aligned = Path::new(&folder).join("libgillgrater.a");
    let done = Command::new("objcopy").args(["--set-section-alignment", ".text.*=64", made]).arg(aligned).status();
    assert!(done.is_ok_and(|status| status.success()), "objcopy could not copy {made}");
    println!("cargo:rustc-link-search=native={folder}");
    println!("cargo:rustc-link-lib=static=gillgrater");
    println!("cargo:rerun-if-changed={made}");
}
