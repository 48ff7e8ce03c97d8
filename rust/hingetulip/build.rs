//! Links the static library that lies in `lib`, or in the folder that HINGETULIP_LIB names.
use std::{env, path::PathBuf};

fn main() {
    let set = |name: &str| env::var(name).unwrap_or_default();
    let (os, arch) = (set("CARGO_CFG_TARGET_OS"), set("CARGO_CFG_TARGET_ARCH"));
    assert!((&*os, &*arch) == ("linux", "x86_64"), "libhingetulip.a is for x86-64 Linux, and not for {arch} {os}");
    let folder = env::var_os("HINGETULIP_LIB").map_or_else(|| PathBuf::from(set("CARGO_MANIFEST_DIR")).join("lib"), PathBuf::from);
    let library = folder.join("libhingetulip.a");
    println!("cargo:rerun-if-env-changed=HINGETULIP_LIB");
    println!("cargo:rerun-if-changed={}", library.display());
    assert!(library.is_file(), "{} isn't there: HINGETULIP_LIB names the folder that has it", library.display());
    println!("cargo:rustc-link-search=native={}", folder.display());
    println!("cargo:rustc-link-lib=static=hingetulip");
}
