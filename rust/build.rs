// Links the archive that tools/archive makes. MIXEGORTA_ARCHIVE_DIR names its folder where that is not ../lib of a release or ../target of the source. An
// archive of another version is refused, and so is one of this repository that is older than a crate.
use std::env;
use std::fs;
use std::path::{Path, PathBuf};
use std::process::Command;
use std::time::SystemTime;

const ASKS: &str = r#"
extern "C" {
    fn mixegorta_version() -> u64;
}
fn main() {
    let version = unsafe { mixegorta_version() };
    print!("{}.{}.{}", version / 1_000_000, version / 1_000 % 1_000, version % 1_000);
}
"#;

fn set(name: &str) -> PathBuf {
    PathBuf::from(env::var_os(name).expect("cargo sets it"))
}

/// The version that the archive answers, by a program that links it; `None` where it has no such function.
fn version_of(folder: &Path) -> Option<String> {
    let source = set("OUT_DIR").join("version.rs");
    let program = set("OUT_DIR").join("version");
    fs::write(&source, ASKS).expect("OUT_DIR can be written");
    let linked = Command::new(set("RUSTC"))
        .args(["--edition", "2021", "-l", "static=mixegorta", "-L"])
        .arg(folder)
        .arg("-o")
        .args([&program, &source])
        .output()
        .expect("cargo names a compiler");
    let told = linked
        .status
        .success()
        .then(|| Command::new(&program).output());
    told?
        .ok()
        .map(|said| String::from_utf8_lossy(&said.stdout).into_owned())
}

/// The first file below a folder that was changed after a time. Wrong edits, and what the kit leaves in a crate's folder, are not part of the archive.
fn newer(folder: &Path, than: SystemTime) -> Option<PathBuf> {
    let entries = fs::read_dir(folder).ok()?.flatten();
    entries
        .filter(|entry| entry.file_name() != "must-fail" && entry.file_name() != "out")
        .find_map(|entry| {
            let about = entry.metadata().ok()?;
            if about.is_dir() {
                return newer(&entry.path(), than);
            }
            (about.modified().ok()? > than).then(|| entry.path())
        })
}

/// The crates that the archive is made from, as crates.txt tells what each needs.
fn needed(listed: &str) -> Vec<&str> {
    let lines: Vec<(&str, &str)> = listed
        .lines()
        .filter_map(|line| line.split_once(':'))
        // A static library has a word beside its name.
        .map(|(name, below)| (name.split(' ').next().unwrap_or(name), below))
        .collect();
    let mut found = vec!["capi"];
    let mut done = 0;
    while done < found.len() {
        let below = lines
            .iter()
            .filter(|(name, _)| *name == found[done])
            .flat_map(|(_, below)| below.split_whitespace());
        let new: Vec<&str> = below.filter(|name| !found.contains(name)).collect();
        found.extend(new);
        done += 1;
    }
    found
}

/// The archive of this repository: what of its crates is newer.
fn newer_crate(archive: &Path) -> Option<PathBuf> {
    let root = set("CARGO_MANIFEST_DIR").join("..");
    let crates = root.join("crates");
    println!(
        "cargo:rerun-if-changed={}",
        root.join("crates.txt").display()
    );
    let listed = fs::read_to_string(root.join("crates.txt")).ok()?;
    for name in needed(&listed) {
        let parts = ["src", "specs", "proofs"].map(|part| crates.join(name).join(part));
        for part in parts.iter().filter(|part| part.exists()) {
            println!("cargo:rerun-if-changed={}", part.display());
        }
    }
    let built = fs::metadata(archive).ok()?.modified().ok()?;
    needed(&listed)
        .into_iter()
        .find_map(|name| newer(&crates.join(name), built))
}

/// Where the archive stands: `../lib` of a release, `../target` of the source folder.
fn own_folder() -> PathBuf {
    let beside = set("CARGO_MANIFEST_DIR").join("..");
    let released = beside.join("lib");
    if released.join("libmixegorta.a").exists() {
        released
    } else {
        beside.join("target")
    }
}

/// Without an archive this crate's own tests are left out. A crate that depends on it is refused by src/lib.rs, which is compiled
/// after this and knows whether it is a dependency. A folder that was named must have one.
fn without_library(shown: &str, named: bool) {
    let missing = format!("no {shown}: run tools/archive, or set MIXEGORTA_ARCHIVE_DIR to the folder of libmixegorta.a");
    assert!(!named, "{missing}");
    println!("cargo:warning={missing}; the tests that need it are left out");
    println!("cargo:rustc-cfg=without_library");
    println!("cargo:rustc-link-arg=-Wl,--unresolved-symbols=ignore-all");
}

fn main() {
    println!("cargo:rerun-if-env-changed=MIXEGORTA_ARCHIVE_DIR");
    let named = env::var_os("MIXEGORTA_ARCHIVE_DIR").map(PathBuf::from);
    let own = own_folder();
    let folder = named.as_ref().unwrap_or(&own);
    let archive = folder.join("libmixegorta.a");
    println!("cargo:rerun-if-changed={}", archive.display());
    let shown = archive.display();
    println!("cargo:rustc-check-cfg=cfg(without_library)");
    if !archive.exists() {
        return without_library(&shown.to_string(), named.is_some());
    }
    if let (None, Some(file)) = (&named, newer_crate(&archive)) {
        let file = file.display();
        panic!("{shown} is older than {file}: run tools/archive, or set MIXEGORTA_ARCHIVE_DIR to take an archive as it is");
    }
    // The archive is for one platform, so the program that asks it runs where the crate does.
    if set("HOST") == set("TARGET") {
        let wanted = env!("CARGO_PKG_VERSION");
        let found = version_of(folder).unwrap_or("that is not told".into());
        assert!(
            found == wanted,
            "{shown} is of a version {found}, and this crate of {wanted}: build both from one source"
        );
    }
    println!("cargo:rustc-link-search=native={}", folder.display());
    println!("cargo:rustc-link-lib=static=mixegorta");
}
