//! Copies naga's files, unchanged, beside our own stand-ins for the files that they name.
use std::path::{Path, PathBuf};
use std::{env, fs};

/// Files of naga, by their paths below its `src`.
const NAGA: [&str; 6] = [
    "arena/handle.rs",
    "arena/mod.rs",
    "arena/range.rs",
    "arena/unique_arena.rs",
    "non_max_u32.rs",
    "valid/handles.rs",
];

/// Our own files that `arena/mod.rs` names as its modules.
const OURS: [&str; 2] = ["arena/handle_set.rs", "arena/handlevec.rs"];

/// The modules of the crate that are made of these files.
const MODULES: &str = "\
#[allow(dead_code, unused_imports, clippy::all)]
#[path = \"DIR/arena/mod.rs\"]
pub mod arena;
#[path = \"DIR/non_max_u32.rs\"]
mod non_max_u32;
";

const HANDLES: &str = "\
#[allow(dead_code, clippy::all)]
#[path = \"DIR/valid/handles.rs\"]
mod handles;
";

fn main() {
    println!("cargo::rerun-if-env-changed=NAGA_SRC");
    let source = env::var("NAGA_SRC").expect("NAGA_SRC is the folder src of naga 30.0.1");
    let out = PathBuf::from(env::var("OUT_DIR").expect("cargo gives OUT_DIR"));
    for file in NAGA {
        copy(&Path::new(&source).join(file), &out.join(file));
    }
    for file in OURS {
        copy(&Path::new("src").join(file), &out.join(file));
    }
    let dir = out.to_str().expect("OUT_DIR is UTF-8");
    write(&out.join("modules.rs"), &MODULES.replace("DIR", dir));
    write(&out.join("handles.rs"), &HANDLES.replace("DIR", dir));
}

fn copy(from: &Path, to: &Path) {
    println!("cargo::rerun-if-changed={}", from.display());
    let text = fs::read_to_string(from).unwrap_or_else(|e| panic!("{}: {e}", from.display()));
    write(to, &text);
}

fn write(to: &Path, text: &str) {
    let folder = to.parent().expect("the file is in a folder");
    fs::create_dir_all(folder).unwrap_or_else(|e| panic!("{}: {e}", folder.display()));
    fs::write(to, text).unwrap_or_else(|e| panic!("{}: {e}", to.display()));
}
