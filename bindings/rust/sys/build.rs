//! Finds the library that `bindings/build.sh FOLDER` builds, `libpundewo.a`: in the folder that `PUNDEWO_LIB` names, else in
//! the folder `lib` of this crate, as packages have it, else where pkg-config finds `pundewo`. If it is nowhere, or of another
//! version, or not as it was packaged, one line says so, and what to do.

use std::env;
use std::path::{Path, PathBuf};
use std::process::{Command, exit};

const NAME: &str = "libpundewo.a";
const SUM: &str = "libpundewo.a.sha256";
const ADVICE: &str = "run `bindings/build.sh FOLDER`, and set PUNDEWO_LIB to the absolute path of FOLDER/lib";

fn main() {
    for name in ["PUNDEWO_LIB", "PKG_CONFIG_PATH", "DOCS_RS"] {
        println!("cargo:rerun-if-env-changed={name}");
    }
    // (pages need no library)
    if env::var_os("DOCS_RS").is_some() {
        return;
    }
    match library().and_then(checked) {
        Ok(folder) => {
            println!("cargo:rustc-link-search=native={}", folder.display());
            println!("cargo:rerun-if-changed={}", folder.join(NAME).display());
            println!("cargo:rustc-link-lib=static=pundewo");
        }
        Err(fault) => {
            eprintln!("pundewo: {fault}");
            exit(1);
        }
    }
}

/// The folder that has the library.
fn library() -> Result<PathBuf, String> {
    let target = ["OS", "ARCH"].map(|part| env::var(format!("CARGO_CFG_TARGET_{part}")).unwrap_or_default());
    if target != ["linux", "x86_64"] {
        return Err(format!("the library is for x86_64 Linux, and not for {} {}", target[1], target[0]));
    }
    if let Some(named) = env::var_os("PUNDEWO_LIB").filter(|it| !it.is_empty()) {
        let folder = PathBuf::from(named);
        return with_library(&folder)
            .ok_or_else(|| format!("PUNDEWO_LIB is {}, and there is no {NAME}: {ADVICE}", folder.display()));
    }
    within().or_else(by_pkg_config).ok_or_else(|| format!("there is no {NAME}: {ADVICE}, or install it"))
}

/// The folder of the installed library.
fn by_pkg_config() -> Option<PathBuf> {
    let asked = Command::new("pkg-config").args(["--variable=libdir", "pundewo"]).output().ok()?;
    let folder = String::from_utf8(asked.stdout).ok()?;
    with_library(Path::new(folder.trim()))
}

/// The folder `lib` beside the manifest.
fn within() -> Option<PathBuf> {
    with_library(&Path::new(&env::var_os("CARGO_MANIFEST_DIR")?).join("lib"))
}

fn with_library(folder: &Path) -> Option<PathBuf> {
    folder.join(NAME).is_file().then(|| folder.to_path_buf())
}

/// The folder, if its library is of this version and as it was packaged.
fn checked(folder: PathBuf) -> Result<PathBuf, String> {
    let path = folder.join(NAME);
    let bytes = std::fs::read(&path).map_err(|error| format!("{}: {error}", path.display()))?;
    let (version, text) = (env!("CARGO_PKG_VERSION"), concat!("pundewo ", env!("CARGO_PKG_VERSION"), ", "));
    if !bytes.windows(text.len()).any(|it| it == text.as_bytes()) {
        return Err(format!("{} is not of version {version}, as this crate is: {ADVICE}", path.display()));
    }
    if folder.join(SUM).is_file() {
        let ran = Command::new("sha256sum").args(["-c", SUM]).current_dir(&folder).output();
        if !ran.map_err(|error| format!("sha256sum does not run: {error}"))?.status.success() {
            return Err(format!("{} has another checksum than {SUM} beside it: get the crate again", path.display()));
        }
    }
    Ok(folder)
}
