//! Finds libdenial: by `DENIAL_LIB_DIR`, by `pkg-config`, or in `dist/` of the checkout.
//!
//! README.md says which one is taken, and how it is linked. The key `lib_dir` has the folder, for
//! build scripts of crates that depend on this one.
use std::env;
use std::path::{Path, PathBuf};
use std::process::{exit, Command};

/// The variables that change what is found.
const NAMES: [&str; 5] = [
    "DENIAL_LIB_DIR",
    "DENIAL_LINK",
    "PKG_CONFIG",
    "PKG_CONFIG_PATH",
    "PKG_CONFIG_LIBDIR",
];

/// A folder, and whether its static library is preferred.
struct Found {
    folder: PathBuf,
    prefers_static: bool,
}

/// Returns what `pkg-config` knows of the library's folder. It knows that of this machine only.
fn by_pkg_config() -> Option<PathBuf> {
    if env::var_os("TARGET") != env::var_os("HOST") {
        return None;
    }
    let program = env::var_os("PKG_CONFIG").unwrap_or_else(|| "pkg-config".into());
    let run = Command::new(program)
        .args(["--variable=libdir", "denial"])
        .output()
        .ok()?;
    let folder = String::from_utf8(run.stdout).ok()?;
    let folder = folder.trim();
    (run.status.success() && !folder.is_empty()).then(|| PathBuf::from(folder))
}

/// Returns the folder of the built library in the checkout that has this crate.
fn in_checkout() -> Option<PathBuf> {
    let target = env::var("TARGET").unwrap_or_default();
    let is_ours = target.starts_with("x86_64-") && target.contains("-linux-gnu");
    let here = PathBuf::from(env::var_os("CARGO_MANIFEST_DIR")?);
    let folder = here.ancestors().nth(3)?.join("dist/x86_64-linux");
    (is_ours && folder.join("libdenial.a").is_file()).then_some(folder)
}

/// Returns the library's folder.
fn find() -> Option<Found> {
    if let Some(folder) = env::var_os("DENIAL_LIB_DIR") {
        return Some(Found {
            folder: folder.into(),
            prefers_static: true,
        });
    }
    if let Some(folder) = by_pkg_config() {
        return Some(Found {
            folder,
            prefers_static: false,
        });
    }
    in_checkout().map(|folder| Found {
        folder,
        prefers_static: true,
    })
}

/// Returns how the library of a folder is linked, or what is wrong.
fn kind(found: &Found) -> Result<&'static str, String> {
    let has = |name: &str| Path::new(&found.folder).join(name).is_file();
    let (of_static, of_shared) = (has("libdenial.a"), has("libdenial.so"));
    match env::var("DENIAL_LINK").as_deref() {
        Ok("static") if of_static => Ok("static"),
        Ok("shared") if of_shared => Ok("dylib"),
        Ok(wanted @ ("static" | "shared")) => Err(format!(
            "{} has no {wanted} libdenial",
            found.folder.display()
        )),
        Ok(other) => Err(format!("DENIAL_LINK is static or shared, not {other}")),
        Err(_) if of_static && (found.prefers_static || !of_shared) => Ok("static"),
        Err(_) if of_shared => Ok("dylib"),
        Err(_) => Err(format!(
            "{} has no libdenial.a and no libdenial.so",
            found.folder.display()
        )),
    }
}

fn main() {
    println!("cargo:rerun-if-changed=build.rs");
    for name in NAMES {
        println!("cargo:rerun-if-env-changed={name}");
    }
    if env::var_os("DOCS_RS").is_some() {
        return;
    }
    let nothing = "found no libdenial: set DENIAL_LIB_DIR to its folder, or install denial.pc";
    let found = find().ok_or_else(|| nothing.to_string());
    match found.and_then(|found| Ok((kind(&found)?, found.folder))) {
        Ok((kind, folder)) => {
            let end = if kind == "static" { "a" } else { "so" };
            let file = folder.join(format!("libdenial.{end}"));
            println!("cargo:rerun-if-changed={}", file.display());
            println!("cargo:rustc-link-search=native={}", folder.display());
            println!("cargo:rustc-link-lib={kind}=denial");
            println!("cargo:lib_dir={}", folder.display());
        }
        Err(why) => {
            eprintln!("denial-sys: {why}");
            exit(1);
        }
    }
}
