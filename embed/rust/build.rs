//! Finds libyimarotu: in the folder that YIMAROTU_LIB_DIR names, else by pkg-config, else where
//! `make -C embed` of this checkout puts it. It is linked statically where libyimarotu.a is there,
//! unless YIMAROTU_LINK says `shared`.

use std::env;
use std::path::{Path, PathBuf};
use std::process::Command;

const STATIC: &str = "libyimarotu.a";
const SHARED: &str = "libyimarotu.so";
const HOW: &str = "install it by `make -C embed install`, or name the folder where libyimarotu.a \
                   or libyimarotu.so is in YIMAROTU_LIB_DIR";

fn main() {
    for name in ["YIMAROTU_LIB_DIR", "YIMAROTU_LINK", "PKG_CONFIG_PATH"] {
        println!("cargo::rerun-if-env-changed={name}");
    }
    match folder().and_then(|folder| Ok((kind(&folder)?, folder))) {
        Ok((kind, folder)) => tell(kind, &folder),
        Err(why) => println!("cargo::error={why}"),
    }
}

fn tell(kind: &str, folder: &Path) {
    println!("cargo::rustc-link-search=native={}", folder.display());
    println!("cargo::rustc-link-lib={kind}=yimarotu");
    for file in [STATIC, SHARED] {
        println!("cargo::rerun-if-changed={}", folder.join(file).display());
    }
}

/// The folder that has the library.
fn folder() -> Result<PathBuf, String> {
    if let Some(folder) = env::var_os("YIMAROTU_LIB_DIR") {
        let folder = PathBuf::from(folder);
        return match has_library(&folder) {
            true => Ok(folder),
            false => Err(format!(
                "YIMAROTU_LIB_DIR: no libyimarotu is in {}",
                folder.display()
            )),
        };
    }
    let checkout = Path::new(&env::var_os("CARGO_MANIFEST_DIR").unwrap_or_default()).join("../out");
    installed()
        .into_iter()
        .chain([checkout])
        .find(|folder| has_library(folder))
        .ok_or_else(|| format!("libyimarotu was not found: {HOW}"))
}

/// The folder that pkg-config tells, where there is that program and it knows the library.
fn installed() -> Option<PathBuf> {
    let words = ["--variable=libdir", "yimarotu"];
    let said = Command::new("pkg-config").args(words).output().ok()?;
    let text = String::from_utf8(said.stdout).ok()?;
    (said.status.success() && !text.trim().is_empty()).then(|| PathBuf::from(text.trim()))
}

fn has_library(folder: &Path) -> bool {
    folder.join(STATIC).exists() || folder.join(SHARED).exists()
}

/// How it is linked.
fn kind(folder: &Path) -> Result<&'static str, String> {
    let (file, kind) = match env::var("YIMAROTU_LINK").as_deref() {
        Ok("static") => (STATIC, "static"),
        Ok("shared") => (SHARED, "dylib"),
        Ok(other) => {
            return Err(format!(
                "YIMAROTU_LINK is static or shared, and not {other}"
            ));
        }
        Err(_) if folder.join(STATIC).exists() => (STATIC, "static"),
        Err(_) => (SHARED, "dylib"),
    };
    match folder.join(file).exists() {
        true => Ok(kind),
        false => Err(format!(
            "YIMAROTU_LINK: no {file} is in {}",
            folder.display()
        )),
    }
}
