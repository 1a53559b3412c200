//! Finds libgefsunk by pkg-config, which `PKG_CONFIG` may name: in `PKG_CONFIG_PATH`, then beside this package, where it lies in a
//! clone of the repository (`build/c`) or in what was installed, and then in the system.

use std::env;
use std::path::{Path, PathBuf};
use std::process::{exit, Command};

/// The versions that fit these bindings: as long as the first number is 0, the second says whether a program still fits.
fn fitting() -> [String; 2] {
    let number = |name: &str| -> u32 {
        let number = env::var(name).expect("cargo sets the numbers of the version");
        number.parse().expect("they are numbers")
    };
    let (major, minor) = (
        number("CARGO_PKG_VERSION_MAJOR"),
        number("CARGO_PKG_VERSION_MINOR"),
    );
    let next = match major {
        0 => format!("0.{}", minor + 1),
        _ => format!("{}", major + 1),
    };
    [
        format!("gefsunk >= {major}.{minor}"),
        format!("gefsunk < {next}"),
    ]
}

/// What pkg-config says, or why there is nothing.
fn found(here: &Path) -> Result<String, String> {
    let mut path: Vec<PathBuf> = env::var_os("PKG_CONFIG_PATH")
        .map(|path| env::split_paths(&path).collect())
        .unwrap_or_default();
    path.extend(["../build/c", "../../../lib/pkgconfig"].map(|place| here.join(place)));
    let path = env::join_paths(path).map_err(|error| error.to_string())?;
    let program = env::var_os("PKG_CONFIG").unwrap_or("pkg-config".into());
    let ran = Command::new(&program)
        .args(["--print-errors", "--libs"])
        .args(fitting())
        .env("PKG_CONFIG_PATH", path)
        .output()
        .map_err(|error| format!("{} does not run: {error}", program.to_string_lossy()))?;
    let text = |bytes: Vec<u8>| String::from_utf8_lossy(&bytes).into_owned();
    if ran.status.success() {
        Ok(text(ran.stdout))
    } else {
        Err(text(ran.stderr))
    }
}

fn main() {
    let here =
        PathBuf::from(env::var_os("CARGO_MANIFEST_DIR").expect("cargo sets CARGO_MANIFEST_DIR"));
    for name in ["PKG_CONFIG", "PKG_CONFIG_PATH", "GEFSUNK_STATIC"] {
        println!("cargo:rerun-if-env-changed={name}");
    }
    // Documentation wants no library.
    if env::var_os("DOCS_RS").is_some() {
        return;
    }
    let words = found(&here).unwrap_or_else(|why| {
        eprintln!("The library gefsunk was not found: install it, or name the folder of gefsunk.pc in PKG_CONFIG_PATH.");
        eprintln!("{why}");
        exit(1)
    });
    for word in words.split_whitespace() {
        if let Some(folder) = word.strip_prefix("-L") {
            println!("cargo:rustc-link-search=native={folder}");
            let archive = Path::new(folder).join("libgefsunk.a");
            if archive.exists() {
                println!("cargo:rerun-if-changed={}", archive.display());
            }
        } else if let Some(name) = word.strip_prefix("-l") {
            let kind = if name == "gefsunk" && env::var_os("GEFSUNK_STATIC").is_some() {
                "static="
            } else {
                ""
            };
            println!("cargo:rustc-link-lib={kind}{name}");
        }
    }
}
