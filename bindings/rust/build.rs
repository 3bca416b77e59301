//! Finds the library `libwumbyra.a` and links it. It is looked for in the folder that WUMBYRA_LIB_DIR names; without that variable in the
//! folder where it is installed, if pkg-config is there and knows it; else it is built from dist/ of the repository or release that this
//! package is in, with its C compiler; and where the sources there are others than dist/ was made of, it is taken from target/staticlib.

use std::env::{var, var_os};
use std::path::{Path, PathBuf};
use std::process::{exit, Command};

const ARCHIVE: &str = "libwumbyra.a";
/// The call that came last: an archive without it is that of another library, or of an older version.
const NEWEST: &str = "wumbyra_locate";

/// The folder that pkg-config tells, if the archive is in it.
fn installed() -> Option<PathBuf> {
    let asked = Command::new("pkg-config")
        .args(["--variable=libdir", "wumbyra"])
        .output();
    let told = asked.ok().filter(|said| said.status.success())?.stdout;
    let folder = PathBuf::from(String::from_utf8(told).ok()?.trim());
    folder.join(ARCHIVE).is_file().then_some(folder)
}

/// What cargo sets for a build script.
fn set_by_cargo(name: &str) -> String {
    var(name).expect("set by cargo")
}

/// The C compiler for the program's processor: the one that is named for it, else the usual name of one.
fn compiler(target: &str) -> String {
    let own = format!("CC_{}", target.replace('-', "_"));
    let names: &[&str] = if target == set_by_cargo("HOST") {
        &[&own, "TARGET_CC", "CC"]
    } else {
        &[&own, "TARGET_CC"]
    };
    let named = names.iter().find_map(|name| var(name).ok());
    named.unwrap_or_else(|| match target.split('-').next() {
        Some(processor) if target != set_by_cargo("HOST") => format!("{processor}-linux-gnu-gcc"),
        _ => "cc".to_owned(),
    })
}

/// The last line that a command says on standard error.
fn last_words(said: &[u8]) -> String {
    let text = String::from_utf8_lossy(said);
    text.trim_end().lines().last().unwrap_or("").to_owned()
}

/// Builds the archive from dist/, and leaves it in cargo's folder for this package. Sources that dist/ was not made of are those of somebody
/// who changes and proves them.
fn in_repository() -> Result<PathBuf, String> {
    let root = Path::new(&set_by_cargo("CARGO_MANIFEST_DIR")).join("../..");
    let build = root.join("packaging/build");
    let made_of = ["dist", "include/wumbyra.h", "crates", "target/staticlib"];
    for path in made_of.map(|part| root.join(part)) {
        // cargo takes a path that is not there for one that has changed
        if path.exists() {
            println!("cargo:rerun-if-changed={}", path.display());
        }
    }
    if !build.is_file() {
        return Err(format!("{} is missing: this package is built in the repository of Wumbyra or in a release of it, or from an installed \
             library. WUMBYRA_LIB_DIR may name the folder that has {ARCHIVE}.", build.display()));
    }
    let target = set_by_cargo("TARGET");
    let compiler = compiler(&target);
    let run = |words: &[&Path]| {
        let done = Command::new(&build)
            .args(words)
            .env("CC", &compiler)
            .output();
        done.map_err(|error| format!("{} cannot be run: {error}", build.display()))
    };
    let asked = run(&[Path::new("processor")])?;
    let processor = String::from_utf8_lossy(&asked.stdout).trim().to_owned();
    if asked.status.success() && !target.starts_with(&format!("{processor}-")) {
        return Err(format!("`{compiler}` makes code for {processor}, and this program is for {target}: CC_{} names another compiler.", target.replace('-', "_")));
    }
    let folder = PathBuf::from(set_by_cargo("OUT_DIR"));
    let done = run(&[Path::new("archive"), &folder.join(ARCHIVE)])?;
    match done.status.code() {
        Some(0) => Ok(folder),
        Some(1) if root.join("target/staticlib").join(ARCHIVE).is_file() => Ok(root.join("target/staticlib")),
        Some(1) => Err(format!("{}. `make prove` there builds the library from its sources, or let WUMBYRA_LIB_DIR name the folder that has it.", last_words(&done.stderr))),
        _ => Err(last_words(&done.stderr)),
    }
}

/// Why the archive cannot be linked, if it cannot. The linker would say it in a line for each call.
fn fault(archive: &Path) -> Option<String> {
    let shown = archive.display();
    if !archive.is_file() {
        return Some(format!(
            "{shown} is missing: `make` in the repository of Wumbyra builds it, or let WUMBYRA_LIB_DIR name the folder that has it."
        ));
    }
    let bytes = match std::fs::read(archive) {
        Ok(bytes) => bytes,
        Err(error) => return Some(format!("{shown} cannot be read: {error}")),
    };
    let mut names = bytes.windows(NEWEST.len());
    if names.any(|name| name == NEWEST.as_bytes()) {
        return None;
    }
    Some(format!(
        "{shown} is no library of Wumbyra, or not all of it: it has no {NEWEST}"
    ))
}

/// Says why the library cannot be linked. Cargo shows it below its own words.
fn stop(words: &str) -> ! {
    eprintln!("{words}");
    exit(1);
}

fn main() {
    println!("cargo:rerun-if-changed=build.rs");
    for variable in ["WUMBYRA_LIB_DIR", "PKG_CONFIG_PATH", "CC", "TARGET_CC"] {
        println!("cargo:rerun-if-env-changed={variable}");
    }
    let folder = match var_os("WUMBYRA_LIB_DIR") {
        // Cargo runs this in the package's folder, and the compiler elsewhere: only a full path means the same to both.
        Some(named) => std::env::current_dir()
            .expect("cargo runs this in a folder")
            .join(named),
        None => installed()
            .map_or_else(in_repository, Ok)
            .unwrap_or_else(|words| stop(&words)),
    };
    let archive = folder.join(ARCHIVE);
    println!("cargo:rerun-if-changed={}", archive.display());
    if let Some(words) = fault(&archive) {
        stop(&words);
    }
    println!("cargo:rustc-link-search=native={}", folder.display());
    println!("cargo:rustc-link-lib=static=wumbyra");
}
