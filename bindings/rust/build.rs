//! Links `libwalnut.a`, from the folder that the environment variable `WALNUT_LIB_DIR` names. If it is not set, the
//! command pkg-config says where the library is. A library of another version is refused in both cases.

use std::env;
use std::ffi::OsStr;
use std::fs;
use std::path::{absolute, Path};
use std::process::Command;

fn main() {
    for name in ["WALNUT_LIB_DIR", "PKG_CONFIG", "PKG_CONFIG_PATH", "PKG_CONFIG_LIBDIR"] {
        println!("cargo::rerun-if-env-changed={name}");
    }
    let found = match env::var_os("WALNUT_LIB_DIR") {
        Some(named) => named_folder(Path::new(&named)),
        None => by_pkg_config().and_then(|folder| linked(Path::new(&folder), "which pkg-config names")),
    };
    if let Err(fault) = found {
        println!("cargo::error={fault}: {HELP}");
    }
}

/// Links the archive of a folder.
fn linked(folder: &Path, named: &str) -> Result<(), String> {
    // a relative name counts from this package's folder, where cargo runs this program
    let folder = absolute(folder).unwrap_or_else(|_| folder.to_path_buf());
    let (library, shown) = (folder.join("libwalnut.a"), folder.display());
    println!("cargo::rerun-if-changed={}", library.display());
    if !library.is_file() {
        return Err(format!("no libwalnut.a in {shown}, {named}"));
    }
    println!("cargo::rustc-link-search=native={shown}");
    println!("cargo::rustc-link-lib=static=walnut");
    Ok(())
}

/// Succeeds if this is a version of the library that fits the package. The patch may be newer. Another minor version
/// may have other functions and structs.
fn fits(found: &str) -> Result<(), String> {
    let needed = env!("CARGO_PKG_VERSION");
    let (minor, patch) = needed.rsplit_once('.').unwrap_or((needed, ""));
    let number = |patch: &str| patch.parse::<u32>().ok();
    match found.rsplit_once('.') {
        Some(parts) if parts.0 == minor && number(parts.1) >= number(patch) => Ok(()),
        _ => Err(format!("it has version {found}, and {needed} or a later patch of {minor} is needed")),
    }
}

/// Links the archive of the folder that `WALNUT_LIB_DIR` names, if its header states a version that fits. The header is
/// beside the archive, as in `target/library`, or in `../include`, as for `PREFIX/lib`.
fn named_folder(folder: &Path) -> Result<(), String> {
    linked(folder, "which WALNUT_LIB_DIR names")?;
    let headers = [folder.join("walnut.h"), folder.join("../include/walnut.h")];
    let Some(header) = headers.iter().find(|header| header.is_file()) else {
        let shown = folder.display();
        return Err(format!(
            "the version of {shown}/libwalnut.a is unknown: no walnut.h is in {shown} or {shown}/../include"
        ));
    };
    let shown = header.display();
    println!("cargo::rerun-if-changed={shown}");
    let text = fs::read_to_string(header).map_err(|error| format!("{shown}: {error}"))?;
    let part = |name| {
        let define = format!("#define WALNUT_VERSION_{name} ");
        text.lines().find_map(|line| line.strip_prefix(&define)).unwrap_or("?").trim()
    };
    fits(&["MAJOR", "MINOR", "PATCH"].map(part).join(".")).map_err(|said| format!("{shown}: {said}"))
}

/// The folder of an installed library whose version fits.
fn by_pkg_config() -> Result<String, String> {
    let version = asked(&["--modversion", "walnut"]);
    let folder =
        version.and_then(|version| fits(&version)).and_then(|()| asked(&["--variable=libdir", "walnut"]));
    let needed = env!("CARGO_PKG_VERSION");
    folder.map_err(|said| {
        format!("WALNUT_LIB_DIR is not set, and pkg-config does not find walnut {needed}: {said}")
    })
}

/// What pkg-config prints for these arguments.
fn asked(arguments: &[&str]) -> Result<String, String> {
    let program = env::var_os("PKG_CONFIG").unwrap_or_else(|| OsStr::new("pkg-config").to_owned());
    let shown = program.to_string_lossy().into_owned();
    let output =
        Command::new(program).args(arguments).output().map_err(|error| format!("{shown}: {error}"))?;
    let printed = |bytes: &[u8]| String::from_utf8_lossy(bytes).trim().replace('\n', "; ");
    if output.status.success() {
        Ok(printed(&output.stdout))
    } else {
        Err(printed(&output.stderr))
    }
}

const HELP: &str = "name the folder with libwalnut.a, target/library after './library' or PREFIX/lib after './library PREFIX'";
