//! Finds OTP's own library `libei.a`: in the folder that `EI_LIB` names, else where Debian's package `erlang-dev` has it, else
//! where the `erl` of the path says. If it is nowhere, one line says so, and what to do.

use std::env;
use std::path::{Path, PathBuf};
use std::process::{Command, exit};

const NAME: &str = "libei.a";
const ADVICE: &str = "run `apt-get install erlang-dev`, or set EI_LIB to the folder that has it";
const ASK: &str = "io:put_chars(code:lib_dir(erl_interface, lib)), halt().";

fn main() {
    println!("cargo:rerun-if-env-changed=EI_LIB");
    println!("cargo:rerun-if-env-changed=DOCS_RS");
    // (pages need no library)
    if env::var_os("DOCS_RS").is_some() {
        return;
    }
    match library() {
        Ok(folder) => {
            println!("cargo:rustc-link-search=native={}", folder.display());
            println!("cargo:rerun-if-changed={}", folder.join(NAME).display());
            println!("cargo:rustc-link-lib=static=ei");
        }
        Err(fault) => {
            eprintln!("pundewo-erlang: {fault}");
            exit(1);
        }
    }
}

/// The folder that has the library.
fn library() -> Result<PathBuf, String> {
    if let Some(named) = env::var_os("EI_LIB").filter(|it| !it.is_empty()) {
        let folder = PathBuf::from(named);
        let fault = format!("EI_LIB is {}, and there is no {NAME}: {ADVICE}", folder.display());
        return with_library(&folder).ok_or(fault);
    }
    let known = ["/usr/lib", "/usr/lib/erlang/usr/lib"].iter().find_map(|folder| with_library(Path::new(folder)));
    known.or_else(by_erl).ok_or_else(|| format!("there is no {NAME}: {ADVICE}"))
}

/// The folder of the OTP that the path has.
fn by_erl() -> Option<PathBuf> {
    let asked = Command::new("erl").args(["-noshell", "-eval", ASK]).output().ok()?;
    with_library(Path::new(String::from_utf8(asked.stdout).ok()?.trim()))
}

fn with_library(folder: &Path) -> Option<PathBuf> {
    folder.join(NAME).is_file().then(|| folder.to_path_buf())
}
