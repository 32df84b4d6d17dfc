//! Finds libtinplateau.a and links it.

use std::env;
use std::path::{Path, PathBuf};
use std::process::{exit, Command};

const NAME: &str = "libtinplateau.a";

fn fail(text: &str) -> ! {
    eprintln!("{text}");
    exit(1)
}

/// The folder that the caller names, which must have the library.
fn named() -> Option<PathBuf> {
    let folder = env::var_os("TINPLATEAU_LIB_DIR").filter(|folder| !folder.is_empty()).map(PathBuf::from)?;
    if !folder.is_absolute() || !folder.join(NAME).is_file() {
        fail(&format!("TINPLATEAU_LIB_DIR is {}: set it to the absolute path of the folder that has {NAME}", folder.display()));
    }
    Some(folder)
}

/// Where the repository builds it.
fn built() -> Option<PathBuf> {
    let package = env::var_os("CARGO_MANIFEST_DIR")?;
    let folder = Path::new(&package).join("../../build/lib");
    Some(folder).filter(|folder| folder.join(NAME).is_file())
}

/// Where a library that has these calls is installed: of this MAJOR, and not older.
fn installed() -> Option<PathBuf> {
    let command = env::var_os("PKG_CONFIG").unwrap_or_else(|| "pkg-config".into());
    let asked = |what: &str, versions: String| {
        let output = Command::new(&command).args([what, &format!("tinplateau {versions}")]).output().ok()?;
        Some(output.stdout).filter(|_| output.status.success())
    };
    let major: u32 = env!("CARGO_PKG_VERSION_MAJOR").parse().ok()?;
    asked("--exists", format!("< {}", major + 1))?;
    let folder = asked("--variable=libdir", format!(">= {major}.{}", env!("CARGO_PKG_VERSION_MINOR")))?;
    let folder = PathBuf::from(String::from_utf8(folder).ok()?.trim());
    Some(folder).filter(|folder| folder.join(NAME).is_file())
}

fn main() {
    let target = ["CARGO_CFG_TARGET_ARCH", "CARGO_CFG_TARGET_OS"].map(|variable| env::var(variable).unwrap_or_default());
    if target != ["x86_64", "linux"] {
        fail(&format!("the library is for x86_64 linux, and not for {} {}", target[0], target[1]));
    }
    for variable in ["TINPLATEAU_LIB_DIR", "PKG_CONFIG", "PKG_CONFIG_PATH", "PKG_CONFIG_LIBDIR"] {
        println!("cargo:rerun-if-env-changed={variable}");
    }
    println!("cargo:rerun-if-changed=build.rs");
    let folder = named().or_else(built).or_else(installed);
    let folder =
        folder.unwrap_or_else(|| fail("there is no libtinplateau.a: install it, run `make lib` in its repository or set TINPLATEAU_LIB_DIR"));
    println!("cargo:rerun-if-changed={}", folder.join(NAME).display());
    println!("cargo:rustc-link-search=native={}", folder.display());
    println!("cargo:rustc-link-lib=static=tinplateau");
}
