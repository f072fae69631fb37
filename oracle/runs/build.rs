//! Links the engine's static library, whose path is in `ENGINE`, if the feature `engine` is on.

use std::path::Path;

fn main() {
    println!("cargo:rerun-if-env-changed=ENGINE");
    if std::env::var_os("CARGO_FEATURE_ENGINE").is_none() {
        return;
    }
    let library = std::env::var("ENGINE").expect("ENGINE: the path of the archive");
    let path = Path::new(&library);
    let folder = path.parent().expect("a file").display();
    let stem = path.file_stem().and_then(|stem| stem.to_str()).unwrap_or("");
    let name = stem.strip_prefix("lib").expect("ENGINE: a file lib….a");
    println!("cargo:rerun-if-changed={}", library);
    println!("cargo:rustc-link-search=native={}", folder);
    println!("cargo:rustc-link-lib=static={}", name);
}
