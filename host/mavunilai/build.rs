//! Finds the static library of the proved replica when the feature `proved` asks for it.

use std::path::{Path, PathBuf};

/// The names that the library may have: as `host/library` writes it, and as `host/install` does.
const LIBRARIES: [&str; 2] = ["replica_c", "mavunilai"];

fn main() {
    println!("cargo::rerun-if-env-changed=MAVUNILAI_LIB");
    if std::env::var_os("CARGO_FEATURE_PROVED").is_none() {
        return;
    }
    let folder = folder();
    for (folder, library) in places(&folder) {
        let archive = folder.join(format!("lib{library}.a"));
        println!("cargo::rerun-if-changed={}", archive.display());
        if archive.is_file() {
            println!("cargo::rustc-link-search=native={}", folder.display());
            println!("cargo::rustc-link-lib=static={library}");
            println!("cargo::rustc-env=MAVUNILAI_ARCHIVE={}", archive.display()); // for the tests in C
            return;
        }
    }
    println!(
        "cargo::error=the proved replica is not there: no libreplica_c.a or libmavunilai.a in {} or in its folder \
         lib. Make it with `host/library` and the Rattle toolchain, or set MAVUNILAI_LIB to the folder that \
         holds it or to the one that `host/install` was given, or leave out the feature `proved`.",
        folder.display()
    );
}

/// Where the library may be, in this order: in the folder, and in the folder `lib` below it, where `host/install` puts
/// it.
fn places(folder: &Path) -> impl Iterator<Item = (PathBuf, &'static str)> {
    let folders = [folder.to_path_buf(), folder.join("lib")];
    folders.into_iter().flat_map(|folder| LIBRARIES.map(|library| (folder.clone(), library)))
}

/// The folder that the environment names, else that of the repository. A relative name is taken from where cargo was
/// called, which the shell says in PWD; cargo itself runs this in the package's folder.
fn folder() -> PathBuf {
    let Some(named) = std::env::var_os("MAVUNILAI_LIB").map(PathBuf::from) else {
        return Path::new(env!("CARGO_MANIFEST_DIR")).join("../../target/staticlib");
    };
    if named.is_absolute() {
        return named;
    }
    println!("cargo::rerun-if-env-changed=PWD");
    std::env::var_os("PWD").map(PathBuf::from).unwrap_or_default().join(named)
}
