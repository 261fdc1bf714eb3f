//! Links the library `dulvanos`, whose archive `DULVANOS_LIB` names, and the archives that `DULVANOS_WITH` names,
//! separated by colons.
use std::env;
use std::path::Path;

fn main() {
    println!("cargo::rerun-if-env-changed=DULVANOS_LIB");
    println!("cargo::rerun-if-env-changed=DULVANOS_WITH");
    let library = env::var("DULVANOS_LIB").expect("DULVANOS_LIB is the path of libdulvanos.a");
    let with = env::var("DULVANOS_WITH").unwrap_or_default();
    link(&library);
    for archive in with.split(':').filter(|path| !path.is_empty()) {
        link(archive);
    }
}

fn link(path: &str) {
    let archive = Path::new(path);
    let name = archive.file_name().and_then(|name| name.to_str());
    let name = name.and_then(|name| name.strip_prefix("lib")?.strip_suffix(".a"));
    let (Some(name), Some(folder)) = (name, archive.parent()) else {
        panic!("{path} is not the path of an archive libNAME.a");
    };
    println!("cargo::rerun-if-changed={path}");
    println!("cargo::rustc-link-search=native={}", folder.display());
    println!("cargo::rustc-link-lib=static={name}");
}
