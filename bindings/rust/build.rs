//! Links libfarthingmoss.a (x86-64), which `compare/archive.sh farthingmoss` at the top of the
//! repository builds. It is looked for in the folder FARTHINGMOSS_LIB_DIR, else in target/staticlib there.
use std::env;
use std::path::PathBuf;

fn main() {
    let package = PathBuf::from(env::var_os("CARGO_MANIFEST_DIR").expect("Cargo sets it"));
    let folder = env::var_os("FARTHINGMOSS_LIB_DIR")
        .map_or_else(|| package.join("../../target/staticlib"), PathBuf::from);
    println!("cargo:rustc-link-search=native={}", folder.display());
    println!("cargo:rerun-if-env-changed=FARTHINGMOSS_LIB_DIR");
    println!("cargo:rerun-if-changed={}", folder.join("libfarthingmoss.a").display());
}
