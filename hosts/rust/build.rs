//! Links the archive that `rt lib` makes in crates/vizzaluna, from the folder that VIZZALUNA_LIB names, else from that crate's own out/.
use std::{env, path::PathBuf};

fn main() {
    println!("cargo:rerun-if-env-changed=VIZZALUNA_LIB");
    let folder = match env::var_os("VIZZALUNA_LIB") {
        Some(folder) => PathBuf::from(folder),
        None => PathBuf::from(env::var_os("CARGO_MANIFEST_DIR").expect("cargo sets it")).join("../../crates/vizzaluna/out"),
    };
    let archive = folder.join("libvizzaluna.a");
    println!("cargo:rerun-if-changed={}", archive.display());
    let arch = env::var("CARGO_CFG_TARGET_ARCH").expect("cargo sets it");
    assert!(arch == "x86_64", "the archive is for x86_64, and this build is for {arch}");
    assert!(archive.is_file(), "no {}: run `rt lib` in crates/vizzaluna first", archive.display());
    println!("cargo:rustc-link-search=native={}", folder.display());
    println!("cargo:rustc-link-lib=static=vizzaluna");
}
