// Finds libbisquecrow.a: in the folder that BISQUECROW_LIB_DIR names, else where pkg-config says, else in a release beside the crate, else where
// bindings/library writes it in the repository. A check needs none of them; what is linked needs one.
use std::env;
use std::path::{Path, PathBuf};
use std::process::Command;

const LIBRARY: &str = "libbisquecrow.a";

fn from_pkg_config() -> Option<PathBuf> {
    let program = env::var_os("PKG_CONFIG").unwrap_or_else(|| "pkg-config".into());
    let said = Command::new(program).args(["--variable=libdir", "bisquecrow"]).output().ok()?;
    let folder = PathBuf::from(String::from_utf8(said.stdout).ok()?.trim());
    (said.status.success() && folder.join(LIBRARY).is_file()).then_some(folder)
}

fn main() {
    for name in ["BISQUECROW_LIB_DIR", "PKG_CONFIG", "PKG_CONFIG_PATH"] {
        println!("cargo:rerun-if-env-changed={name}");
    }
    let here = Path::new(env!("CARGO_MANIFEST_DIR"));
    let release = here.join("../lib");
    let folder = match env::var_os("BISQUECROW_LIB_DIR") {
        Some(folder) => folder.into(),
        None if release.join(LIBRARY).is_file() => release,
        None => from_pkg_config().unwrap_or_else(|| here.join("../../target/staticlib")),
    };
    println!("cargo:rerun-if-changed={}", folder.join(LIBRARY).display());
    println!("cargo:rustc-link-search=native={}", folder.display());
    println!("cargo:rustc-link-lib=static=bisquecrow");
}
