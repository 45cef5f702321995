//! Lays files of the Rust's checkout, unchanged, where a crate of this workspace can compile them.
//!
//! Build scripts call this. The checkout is the folder that the environment variable VSR_SRC names; a
//! relative path counts from the repository's root. A file of the checkout becomes a module, not a crate
//! root, since only a module's path may be decided while building; so `crate::` paths in it must be met by
//! re-exports in the root that includes it.

use std::env;
use std::fs;
use std::path::{Path, PathBuf};

/// The folder of the checkout.
fn folder() -> PathBuf {
    println!("cargo:rerun-if-env-changed=VSR_SRC");
    let given = env::var_os("VSR_SRC").expect(
        "VSR_SRC must name the folder of the Rust's lib.rs and simulator/; see compare/README.md",
    );
    repository().join(given)
}

/// The root of the repository, two folders above each crate of this workspace.
fn repository() -> PathBuf {
    let manifest =
        env::var_os("CARGO_MANIFEST_DIR").expect("a build script has CARGO_MANIFEST_DIR");
    Path::new(&manifest).join("../..")
}

/// Makes `OUT_DIR/NAME.rs`, which declares the public module `name`: its files are `unchanged` ones of the
/// checkout and `stand_ins` of the calling crate, side by side, and the first unchanged one is its root.
pub fn lay_module(name: &str, unchanged: &[&str], stand_ins: &[&str]) {
    let out = PathBuf::from(env::var_os("OUT_DIR").expect("a build script has OUT_DIR"));
    let laid = out.join(name);
    fs::create_dir_all(&laid).expect("the folder of the module can be made");
    let checkout = folder();
    for file in unchanged {
        lay(&checkout.join(file), &laid);
    }
    for file in stand_ins {
        lay(Path::new(file), &laid);
    }
    let root = laid.join(file_name(Path::new(unchanged[0])));
    let declaration = format!("#[path = {root:?}]\npub mod {name};\n");
    fs::write(out.join(format!("{name}.rs")), declaration).expect("the declaration can be written");
}

/// Makes `OUT_DIR/NAME.rs`, which declares the public module `name`: a file of the checkout with an `addition`
/// of the calling crate at its end.
pub fn lay_extended(name: &str, unchanged: &str, addition: &str) {
    let out = PathBuf::from(env::var_os("OUT_DIR").expect("a build script has OUT_DIR"));
    let mut bytes = read(&folder().join(unchanged));
    bytes.extend(read(Path::new(addition)));
    let laid = out.join(format!("{name}_module.rs"));
    fs::write(&laid, bytes).expect("a file of the module can be written");
    let declaration = format!("#[path = {laid:?}]\npub mod {name};\n");
    fs::write(out.join(format!("{name}.rs")), declaration).expect("the declaration can be written");
}

/// A file of the checkout that is laid with some of its functions replaced.
pub struct Edited<'a> {
    pub file: &'a str,
    /// A method's first line up to the brace, and the one line that becomes its body.
    pub bodies: &'a [(&'a str, &'a str)],
    /// What is added at the file's end.
    pub end: &'a str,
}

/// Like [`lay_module`], with an edited file as the root.
pub fn lay_edited(name: &str, root: &Edited, unchanged: &[&str], stand_ins: &[&str]) {
    let out = PathBuf::from(env::var_os("OUT_DIR").expect("a build script has OUT_DIR"));
    let laid = out.join(name);
    fs::create_dir_all(&laid).expect("the folder of the module can be made");
    let checkout = folder();
    for file in unchanged {
        lay(&checkout.join(file), &laid);
    }
    for file in stand_ins {
        lay(Path::new(file), &laid);
    }
    let bytes = read(&checkout.join(root.file));
    let mut text = String::from_utf8(bytes).expect("the checkout's files are UTF-8");
    for (first, body) in root.bodies {
        text = replaced(&text, first, body);
    }
    text += root.end;
    let root = laid.join(file_name(Path::new(root.file)));
    fs::write(&root, text).expect("a file of the module can be written");
    let declaration = format!("#[path = {root:?}]\npub mod {name};\n");
    fs::write(out.join(format!("{name}.rs")), declaration).expect("the declaration can be written");
}

/// The text with another body of a method, which stands once in it and ends at the first brace of its own indent.
fn replaced(text: &str, first: &str, body: &str) -> String {
    let opening = format!("    {first} {{\n");
    let parts: Vec<&str> = text.split(&opening).collect();
    let [before, rest] = parts[..] else {
        panic!("{first} does not stand once in the checkout's file");
    };
    let (_, after) = rest.split_once("\n    }\n").expect("a method ends");
    format!("{before}{opening}        {body}\n    }}\n{after}")
}

fn lay(file: &Path, folder: &Path) {
    fs::write(folder.join(file_name(file)), read(file))
        .expect("a file of the module can be written");
}

fn read(file: &Path) -> Vec<u8> {
    println!("cargo:rerun-if-changed={}", file.display());
    fs::read(file).unwrap_or_else(|error| panic!("{}: {error}", file.display()))
}

fn file_name(file: &Path) -> &Path {
    Path::new(file.file_name().expect("a file has a name"))
}
