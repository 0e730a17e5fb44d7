//! Finds the library gitpool: in the folder that `GITPOOL_LIB_DIR` names, else by pkg-config, else in the checkout that this crate stands in, else
//! where the linker looks. Where it is not seen, a warning says how to get it.
//!
//! The archive `libgitpool.a` is linked if that folder has one, and `libgitpool.so` otherwise. `GITPOOL_SHARED=1` asks for `libgitpool.so`.

use std::env;
use std::path::{Path, PathBuf};
use std::process::Command;

fn main() {
    println!("cargo:rerun-if-env-changed=GITPOOL_LIB_DIR");
    println!("cargo:rerun-if-env-changed=GITPOOL_SHARED");
    let folder = env::var_os("GITPOOL_LIB_DIR").map(PathBuf::from).or_else(folder_of_pkg_config).or_else(folder_of_checkout);
    if !folder.iter().map(PathBuf::as_path).chain(USUAL.iter().map(Path::new)).any(has_library) {
        println!(
            "cargo:warning=there is no library gitpool: run ./build gitpool_c in the checkout of gitpool, install the package libgitpool-dev, \
             or let GITPOOL_LIB_DIR name the folder of libgitpool.a or libgitpool.so"
        );
    }
    if let Some(folder) = &folder {
        println!("cargo:rustc-link-search=native={}", folder.display());
        println!("cargo:rerun-if-changed={}", folder.display());
    }
    println!("cargo:rustc-link-lib={}=gitpool", kind_in(folder.as_deref()));
}

// Where linkers look without being told.
const USUAL: [&str; 4] = ["/usr/lib/x86_64-linux-gnu", "/usr/local/lib", "/usr/lib64", "/usr/lib"];

fn has_library(folder: &Path) -> bool {
    ["libgitpool.a", "libgitpool.so"].iter().any(|it| folder.join(it).exists())
}

// Where `./build gitpool_c` leaves the library.
fn folder_of_checkout() -> Option<PathBuf> {
    let folder = PathBuf::from(env::var_os("CARGO_MANIFEST_DIR")?).join("../../out/library");
    has_library(&folder).then_some(folder)
}

fn kind_in(folder: Option<&Path>) -> &'static str {
    let wants_shared = env::var_os("GITPOOL_SHARED").map_or(false, |it| !it.is_empty());
    match folder {
        Some(folder) if !wants_shared && folder.join("libgitpool.a").exists() => "static",
        _ => "dylib",
    }
}

fn folder_of_pkg_config() -> Option<PathBuf> {
    let told = Command::new("pkg-config").args(["--variable=libdir", "gitpool"]).output().ok()?;
    // (pkg-config writes a space in a path as the shell does)
    let folder = String::from_utf8(told.stdout).ok()?.trim_end().replace("\\ ", " ");
    (told.status.success() && !folder.is_empty()).then(|| PathBuf::from(folder))
}
