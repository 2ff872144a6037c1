//! Links the proved codec: the archive that `STORE_READER_ARCHIVE` names, else that of this repository, which
//! `rt lib` makes in `crates/nwk_c` if it is not there.
use std::env;
use std::fs;
use std::path::{Path, PathBuf};
use std::process::{exit, Command};
use std::time::Instant;

/// Names an archive that was built elsewhere.
const ARCHIVE: &str = "STORE_READER_ARCHIVE";

/// What the linker looks for.
const NAME: &str = "libnwk.a";

/// The crate that exports the C functions, and the archive that the toolchain leaves there.
const EXPORTS: &str = "crates/nwk_c";
const MADE: &str = "out/libnwk_c.a";

fn main() {
    println!("cargo:rerun-if-env-changed={ARCHIVE}");
    check_target();
    let archive = named().unwrap_or_else(own);
    let folder = archive.parent().unwrap_or(Path::new("."));
    println!("cargo:rerun-if-changed={}", archive.display());
    println!("cargo:rustc-link-search=native={}", folder.display());
    println!("cargo:rustc-link-lib=static=nwk");
    // For the build scripts of crates that depend on this one: DEP_NWK_ARCHIVE.
    println!("cargo:archive={}", archive.display());
}

/// The toolchain compiles the codec for one processor and system.
fn check_target() {
    let of_target = |name: &str| env::var(name).unwrap_or_default();
    let (processor, system) = (of_target("CARGO_CFG_TARGET_ARCH"), of_target("CARGO_CFG_TARGET_OS"));
    if (processor.as_str(), system.as_str()) != ("x86_64", "linux") {
        stop(&format!("the proved codec is compiled for x86_64 Linux, and the target is {processor} {system}"));
    }
}

/// The archive that the environment names.
fn named() -> Option<PathBuf> {
    let archive = PathBuf::from(env::var_os(ARCHIVE).filter(|path| !path.is_empty())?);
    if archive.file_name().is_none_or(|name| name != NAME) || !archive.is_file() {
        stop(&format!("{ARCHIVE} is to name a file {NAME}, and {} is none", archive.display()));
    }
    Some(archive)
}

/// The archive of this repository, made if it is not there.
fn own() -> PathBuf {
    let root = PathBuf::from(env::var_os("CARGO_MANIFEST_DIR").unwrap_or_default()).join("..");
    let archive = root.join("target/staticlib").join(NAME);
    if !archive.is_file() {
        make(&root, &archive);
    }
    archive
}

/// Proves and compiles the codec; takes ten minutes or so in a fresh tree. Cargo shows the line when it is done.
fn make(root: &Path, archive: &Path) {
    let started = Instant::now();
    let exports = root.join(EXPORTS);
    let ended = Command::new("rt").arg("lib").current_dir(&exports).status();
    match ended {
        Ok(status) if status.success() && placed(&exports.join(MADE), archive) => {
            let minutes = started.elapsed().as_secs().div_ceil(60);
            println!(
                "cargo:warning=the codec was proved and compiled first, in {minutes} min; this is done once, and again when \
                 {} is gone",
                archive.display()
            );
        }
        Ok(status) => stop(&format!("rt lib in {EXPORTS} ended with {status} and left no archive")),
        Err(e) => stop(&format!(
            "there is no {}, and rt, which would prove and compile it in ten minutes or so, could not be started ({e}): put \
             the Rattle toolchain on the path, or name an archive that was built elsewhere in {ARCHIVE}",
            archive.display()
        )),
    }
}

/// Whether the archive that was made now stands in its place.
fn placed(made: &Path, archive: &Path) -> bool {
    archive.parent().is_some_and(|folder| fs::create_dir_all(folder).is_ok()) && fs::copy(made, archive).is_ok()
}

fn stop(why: &str) -> ! {
    eprintln!("store-reader: {why}");
    exit(1)
}
