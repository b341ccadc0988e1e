//! Finds what the crate links: the proved library that `rt lib` makes in a clone of npos, with the
//! kit's archive that gives it memory by `malloc`, `realloc` and `free`; or, where there is no such
//! clone, the installed library, which has both.

use std::env;
use std::path::{Path, PathBuf};
use std::process::{self, Command};

/// Where an archive is sought: at the place that the variable names, or else here.
fn archive(variable: &str, otherwise: Option<PathBuf>) -> Option<PathBuf> {
    println!("cargo:rerun-if-env-changed={variable}");
    env::var_os(variable).map(PathBuf::from).or(otherwise)
}

/// The kit's archive, beside the command `rt` that the search path finds.
fn archive_of_the_kit() -> Option<PathBuf> {
    env::split_paths(&env::var_os("PATH")?)
        .filter_map(|folder| folder.join("rt").canonicalize().ok())
        .filter_map(|rt| Some(rt.parent()?.parent()?.join("c/liblibc_c.a")))
        .find(|found| found.is_file())
}

/// The library of an installed release, where `pkg-config` knows one.
fn installed() -> Option<PathBuf> {
    println!("cargo:rerun-if-env-changed=PKG_CONFIG_PATH");
    let asked = Command::new("pkg-config")
        .args(["--variable=libdir", "npos"])
        .output()
        .ok()?;
    let folder = String::from_utf8(asked.stdout).ok()?;
    let library = Path::new(folder.trim()).join("libnpos.a");
    library.is_file().then_some(library)
}

/// Ends the build, and says what to do.
fn give_up(what: &str, remedy: &str) -> ! {
    eprintln!("npos-elections: {what}\nnpos-elections: {remedy}");
    process::exit(1)
}

/// Links the archive, whose name begins with `lib`.
fn link(path: &Path) {
    let name = path
        .file_name()
        .and_then(|name| name.to_str())
        .unwrap_or("");
    let Some(name) = name
        .strip_prefix("lib")
        .and_then(|name| name.strip_suffix(".a"))
    else {
        give_up(
            &format!("{} is not named as an archive", path.display()),
            "name a file lib*.a",
        );
    };
    let folder = path.parent().unwrap_or(Path::new("."));
    println!("cargo:rerun-if-changed={}", path.display());
    println!("cargo:rustc-link-search=native={}", folder.display());
    println!("cargo:rustc-link-lib=static={name}");
}

fn main() {
    println!("cargo:rerun-if-changed=build.rs");
    let here = PathBuf::from(env::var_os("CARGO_MANIFEST_DIR").unwrap_or_default());
    let top = here.join("../..");
    let made = top.join("crates/npos_c/out/libnpos_c.a");
    let library = archive("NPOS_C_ARCHIVE", Some(made)).unwrap_or_default();
    if !library.is_file() {
        if let Some(library) = installed() {
            return link(&library);
        }
        give_up(
            &format!(
                "there is no archive of the proved library at {}",
                library.display()
            ),
            &format!(
                "install a release of npos, so that pkg-config finds it; or run `cd {} && rt lib`, \
                 which proves and makes it with the Rattle kit's command `rt`; or set \
                 NPOS_C_ARCHIVE to the path of a libnpos_c.a",
                top.join("crates/npos_c").display()
            ),
        );
    }
    let Some(memory) = archive("NPOS_C_MEMORY", archive_of_the_kit()).filter(|it| it.is_file())
    else {
        give_up(
            "the kit's c/liblibc_c.a, by which the library allocates, was not found",
            "put the Rattle kit's command `rt` on the search path, or set NPOS_C_MEMORY to the \
             path of that archive",
        );
    };
    let library = library.canonicalize().unwrap_or(library);
    link(&library);
    link(&memory);
}
