//! Links the archive of the proved library: the one that BELLMANTLE_LIB names, where a relative path counts from the
//! repository's root, or else the one that `tools/archive` writes, which is run if it is not there.

use std::env;
use std::path::{Path, PathBuf};
use std::process::Command;

const BUILT: &str = "target/staticlib/libbellmantle.a";

fn main() {
    println!("cargo:rerun-if-env-changed=BELLMANTLE_LIB");
    let manifest =
        env::var_os("CARGO_MANIFEST_DIR").expect("a build script has CARGO_MANIFEST_DIR");
    let root = Path::new(&manifest).join("../..");
    let archive = match env::var_os("BELLMANTLE_LIB") {
        Some(given) => root.join(given),
        None => built(&root),
    };
    println!("cargo:rerun-if-changed={}", archive.display());
    let archive = archive
        .canonicalize()
        .unwrap_or_else(|error| panic!("{}: {error}", archive.display()));
    let folder = archive.parent().expect("a file stands in a folder");
    let name = archive
        .file_name()
        .and_then(|name| name.to_str()?.strip_prefix("lib")?.strip_suffix(".a"))
        .expect("an archive is named libNAME.a");
    println!("cargo:rustc-link-search=native={}", folder.display());
    println!("cargo:rustc-link-lib=static={name}");
}

/// The archive in the repository's target/, built if it is missing.
fn built(root: &Path) -> PathBuf {
    let archive = root.join(BUILT);
    if !archive.exists() {
        let status = Command::new(root.join("tools/archive"))
            .status()
            .expect("tools/archive needs Python 3 and the Rattle toolchain");
        assert!(status.success(), "tools/archive failed");
    }
    archive
}
