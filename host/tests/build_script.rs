//! What `build.rs` says where it cannot link the codec, and which archive it takes. It is compiled and run here as cargo does.
use std::fs;
use std::path::{Path, PathBuf};
use std::process::{Command, Output};
use std::sync::OnceLock;

fn scratch(name: &str) -> PathBuf {
    Path::new(env!("CARGO_TARGET_TMPDIR")).join(name)
}

/// The build script, compiled.
fn script() -> &'static Path {
    static SCRIPT: OnceLock<PathBuf> = OnceLock::new();
    SCRIPT.get_or_init(|| {
        let program = scratch("build-script");
        let rustc = std::env::var_os("RUSTC").unwrap_or("rustc".into());
        let source = Path::new(env!("CARGO_MANIFEST_DIR")).join("build.rs");
        let compiled = Command::new(rustc).args(["--edition", "2021", "-o"]).arg(&program).arg(source).output();
        let compiled = compiled.expect("rustc starts");
        assert!(compiled.status.success(), "{}", String::from_utf8_lossy(&compiled.stderr));
        program
    })
}

/// Runs it for a crate in this folder with no program on the path but those of a folder.
fn run(crate_folder: &Path, path: &Path, set: &[(&str, &str)]) -> Output {
    let mut command = Command::new(script());
    command.env_clear().env("CARGO_MANIFEST_DIR", crate_folder).env("PATH", path);
    command.env("CARGO_CFG_TARGET_ARCH", "x86_64").env("CARGO_CFG_TARGET_OS", "linux");
    command.envs(set.iter().copied());
    command.output().expect("the build script starts")
}

/// A repository without an archive; its crate's folder.
fn fresh(name: &str) -> PathBuf {
    let root = scratch(name);
    let _ = fs::remove_dir_all(&root);
    for folder in ["host", "crates/nwk_c"] {
        fs::create_dir_all(root.join(folder)).expect("a folder");
    }
    root.join("host")
}

fn said(output: &Output) -> (String, bool) {
    (String::from_utf8_lossy(&output.stderr).into_owned(), output.status.success())
}

#[test]
fn another_target_is_refused_with_a_sentence() {
    let folder = fresh("other-target");
    let ran = run(&folder, &folder, &[("CARGO_CFG_TARGET_ARCH", "arm"), ("CARGO_CFG_TARGET_OS", "none")]);
    let expected = "store-reader: the proved codec is compiled for x86_64 Linux, and the target is arm none\n";
    assert_eq!(said(&ran), (expected.to_string(), false));
}

#[test]
fn without_archive_and_toolchain_it_says_what_helps() {
    let folder = fresh("no-toolchain");
    let (message, success) = said(&run(&folder, &folder, &[]));
    assert!(!success);
    for part in ["there is no ", "libnwk.a, and rt, ", "ten minutes", "on the path", "STORE_READER_ARCHIVE"] {
        assert!(message.contains(part), "{message}");
    }
}

#[test]
fn an_archive_of_elsewhere_is_taken() {
    let folder = fresh("elsewhere");
    let archive = folder.join("libnwk.a");
    let name = archive.to_str().expect("UTF-8");
    let missing = run(&folder, &folder, &[("STORE_READER_ARCHIVE", name)]);
    let expected = format!("store-reader: STORE_READER_ARCHIVE is to name a file libnwk.a, and {name} is none\n");
    assert_eq!(said(&missing), (expected, false));
    fs::write(&archive, "an archive").expect("a file");
    let taken = run(&folder, &folder, &[("STORE_READER_ARCHIVE", name)]);
    let printed = String::from_utf8_lossy(&taken.stdout);
    assert!(printed.contains(&format!("cargo:rustc-link-search=native={}\n", folder.display())), "{printed}");
    assert!(printed.contains("cargo:rerun-if-env-changed=STORE_READER_ARCHIVE\n"), "{printed}");
    assert!(printed.contains(&format!("cargo:archive={name}\n")), "{printed}");
    assert_eq!(said(&taken), (String::new(), true));
}

/// A toolchain that leaves an archive: cargo shows one line about it. One that leaves none is said to have failed.
#[test]
fn the_archive_is_made_where_it_is_missing() {
    let folder = fresh("made");
    let tools = folder.join("tools");
    fs::create_dir_all(&tools).expect("a folder");
    let rt = tools.join("rt");
    let write = |text: &str| {
        fs::write(&rt, text).expect("a script");
        let executable = std::os::unix::fs::PermissionsExt::from_mode(0o755);
        fs::set_permissions(&rt, executable).expect("permissions");
    };
    write("#!/bin/sh\nexit 3\n");
    let (message, success) = said(&run(&folder, &tools, &[]));
    assert!(!success && message.contains("rt lib in crates/nwk_c ended with exit status: 3"), "{message}");
    write("#!/bin/sh\n/bin/mkdir -p out && echo \"$@\" > out/libnwk_c.a\n");
    let ran = run(&folder, &tools, &[]);
    let printed = String::from_utf8_lossy(&ran.stdout);
    assert_eq!(printed.matches("cargo:warning=the codec was proved and compiled first, in ").count(), 1, "{printed}");
    let made = fs::read_to_string(folder.join("../target/staticlib/libnwk.a")).expect("the archive");
    assert_eq!(made, "lib\n");
    // The second time it is there.
    let again = run(&folder, &folder, &[]);
    assert_eq!(said(&again), (String::new(), true));
    assert!(!String::from_utf8_lossy(&again.stdout).contains("warning"));
}
