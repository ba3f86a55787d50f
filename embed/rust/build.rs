//! Links the archive that `embed/build` makes, or that in the folder that the variable LWCRUN_LIBRARIES names.

use std::env;
use std::path::PathBuf;

fn main() {
    let here =
        PathBuf::from(env::var_os("CARGO_MANIFEST_DIR").expect("cargo names the crate's folder"));
    let folder = env::var_os("LWCRUN_LIBRARIES").map_or_else(|| here.join("../out"), PathBuf::from);
    println!("cargo::rustc-link-search=native={}", folder.display());
    println!("cargo::rustc-link-lib=static=lwcrun");
    println!(
        "cargo::rerun-if-changed={}",
        folder.join("liblwcrun.a").display()
    );
    println!("cargo::rerun-if-env-changed=LWCRUN_LIBRARIES");
}
