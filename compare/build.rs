// Links the archive that tools/archive makes. Without it the tests that need it are left out, and compare/run has made it before.
use std::env;
use std::path::PathBuf;

fn main() {
    println!("cargo:rustc-check-cfg=cfg(without_library)");
    println!("cargo:rerun-if-env-changed=MIXEGORTA_ARCHIVE_DIR");
    let own = PathBuf::from(env::var_os("CARGO_MANIFEST_DIR").expect("cargo sets it")).join("../target");
    let folder = env::var_os("MIXEGORTA_ARCHIVE_DIR").map_or(own, PathBuf::from);
    let archive = folder.join("libmixegorta.a");
    println!("cargo:rerun-if-changed={}", archive.display());
    if archive.exists() {
        println!("cargo:rustc-link-search=native={}", folder.display());
        println!("cargo:rustc-link-lib=static=mixegorta");
    } else {
        println!("cargo:warning=no {}: the comparison is left out of the tests; run tools/archive", archive.display());
        println!("cargo:rustc-cfg=without_library");
        println!("cargo:rustc-link-arg=-Wl,--unresolved-symbols=ignore-all");
    }
}
