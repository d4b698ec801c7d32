//! Links the archive that `bindings/build` makes: in `TOML_EDIT_LIBRARY`, in `lib` beside this file, or in `bindings/out`.
use std::path::PathBuf;

fn main() {
    println!("cargo:rerun-if-env-changed=TOML_EDIT_LIBRARY");
    let folder = match std::env::var_os("TOML_EDIT_LIBRARY") {
        Some(folder) => PathBuf::from(folder),
        None => {
            let here = PathBuf::from(env!("CARGO_MANIFEST_DIR"));
            if here.join("lib").is_dir() {
                here.join("lib")
            } else {
                here.join("../out")
            }
        }
    };
    let archive = folder.join("libtoml_edit.a");
    assert!(archive.exists(), "no {}: build it by bindings/build", archive.display());
    println!("cargo:rerun-if-changed={}", archive.display());
    println!("cargo:rustc-link-search=native={}", folder.display());
    println!("cargo:rustc-link-lib=static=toml_edit");
}
