//! Says where the archive is: in the folder of SUGWELAN_ARCHIVES, or in `../out`, where `front/try` puts it.

use std::env;
use std::path::{Path, PathBuf};

/// The libraries to link: both archives in one, as `front/try` makes it, or each of them.
fn libraries(folder: &Path) -> Option<&'static [&'static str]> {
    let has = |name: &str| folder.join(format!("lib{name}.a")).is_file();
    if has("sugwelan") {
        Some(&["sugwelan"])
    } else if has("sugwelan_c") && has("libc_c") {
        Some(&["sugwelan_c", "libc_c"])
    } else {
        None
    }
}

fn main() {
    let beside = PathBuf::from(env::var("CARGO_MANIFEST_DIR").expect("cargo says where the crate is")).join("../out");
    let folder = env::var("SUGWELAN_ARCHIVES").map_or(beside, PathBuf::from);
    println!("cargo:rerun-if-env-changed=SUGWELAN_ARCHIVES");
    println!("cargo:rerun-if-changed=build.rs");
    let Some(libraries) = libraries(&folder) else {
        println!(
            "cargo:warning=sugwelan: no libsugwelan.a in {}. `front/try --build` makes it there; or name the folder \
             that has it by the variable SUGWELAN_ARCHIVES.",
            folder.display()
        );
        std::process::exit(1);
    };
    println!("cargo:rustc-link-search=native={}", folder.display());
    for name in libraries {
        println!(
            "cargo:rerun-if-changed={}",
            folder.join(format!("lib{name}.a")).display()
        );
        println!("cargo:rustc-link-lib=static={name}");
    }
}
