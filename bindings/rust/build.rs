//! Finds liblocator for the target that cargo builds for, and says so in one sentence where there is none. In this
//! order: the folder LOCATOR_LIB, where that is set; what tools/library builds in this repository; what tools/install
//! installed, by pkg-config.
use std::path::{Path, PathBuf};
use std::{env, process::Command};

/// Links the archive of a folder.
fn link(dir: &Path) {
    println!("cargo:rustc-link-search=native={}", dir.display());
    println!("cargo:rustc-link-lib=static=locator");
    println!(
        "cargo:rerun-if-changed={}",
        dir.join("liblocator.a").display()
    );
}

/// Where tools/library puts the archive of an architecture, below target/.
fn folder(arch: &str) -> Option<&'static str> {
    match arch {
        "x86_64" => Some("staticlib"),
        "aarch64" => Some("aarch64"),
        "arm" => Some("armhf"),
        "wasm32" => Some("wasm32"),
        _ => None,
    }
}

/// The folder of an installed library, where pkg-config knows one.
fn installed() -> Option<PathBuf> {
    let tool = env::var_os("PKG_CONFIG").unwrap_or_else(|| "pkg-config".into());
    let told = Command::new(tool)
        .args(["--variable=libdir", "locator"])
        .output()
        .ok()?;
    let dir = PathBuf::from(String::from_utf8(told.stdout).ok()?.trim());
    dir.join("liblocator.a").exists().then_some(dir)
}

fn main() {
    println!("cargo:rerun-if-changed=build.rs");
    println!("cargo:rerun-if-env-changed=LOCATOR_LIB");
    println!("cargo:rerun-if-env-changed=PKG_CONFIG_PATH");
    let arch = env::var("CARGO_CFG_TARGET_ARCH").unwrap();
    if let Some(dir) = env::var_os("LOCATOR_LIB").map(PathBuf::from) {
        if !dir.join("liblocator.a").exists() {
            panic!(
                "LOCATOR_LIB is {}, and there is no liblocator.a",
                dir.display()
            );
        }
        return link(&dir);
    }
    let target = Path::new(&env::var_os("CARGO_MANIFEST_DIR").unwrap()).join("../../target");
    let built = folder(&arch).map(|name| target.join(name));
    if let Some(dir) = built
        .as_ref()
        .filter(|dir| dir.join("liblocator.a").exists())
    {
        return link(dir);
    }
    // an installed library is for this machine: for another target pkg-config is asked only where it is told of one
    if env::var("HOST") == env::var("TARGET") || env::var_os("PKG_CONFIG_ALLOW_CROSS").is_some() {
        if let Some(dir) = installed() {
            return link(&dir);
        }
    }
    panic!("there is no liblocator for {arch}: run tools/library in the repository, or tools/install, or set LOCATOR_LIB to the folder of liblocator.a");
}
