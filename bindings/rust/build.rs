//! Finds the library: in the folder that `ENFORCE_LIB_DIR` names, else where pkg-config says. Where it is not, nothing can be linked, and the pages can be made.
use std::env;
use std::process::Command;

fn folder_by_pkg_config() -> Option<String> {
    let told = Command::new("pkg-config").args(["--variable=libdir", "enforce"]).output().ok()?;
    told.status.success().then(|| String::from_utf8_lossy(&told.stdout).trim().to_owned())
}

fn main() {
    println!("cargo::rerun-if-env-changed=ENFORCE_LIB_DIR");
    println!("cargo::rerun-if-env-changed=PKG_CONFIG_PATH");
    match env::var("ENFORCE_LIB_DIR").ok().or_else(folder_by_pkg_config) {
        Some(folder) => {
            println!("cargo::rerun-if-changed={folder}/libenforce.a");
            println!("cargo::rustc-link-search=native={folder}");
        }
        None => println!("cargo::warning=no libenforce.a: ENFORCE_LIB_DIR names its folder, or pkg-config knows enforce"),
    }
    println!("cargo::rustc-link-lib=static=enforce");
}
