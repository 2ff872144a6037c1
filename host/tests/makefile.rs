//! `make install` puts everything in place, and `make` says what is missing before it says how long it takes.
#[allow(dead_code)]
mod support;

use std::fs;
use std::os::unix::fs::{symlink, PermissionsExt};
use std::path::{Path, PathBuf};
use std::process::{Command, Output};
use support::command::{not_installed, root, scratch};

/// A folder that is empty.
fn fresh(name: &str) -> PathBuf {
    let folder = scratch(name);
    let _ = fs::remove_dir_all(&folder);
    fs::create_dir_all(&folder).expect("a folder");
    folder
}

fn text(output: &Output) -> String {
    format!("{}{}", String::from_utf8_lossy(&output.stdout), String::from_utf8_lossy(&output.stderr))
}

/// Archive and command are taken as they are: this test proves and builds nothing.
fn make(arguments: &[&str]) -> Output {
    let old = ["-o", "target/staticlib/libnwk.a", "-o", "host/target/release/store-reader", "--no-print-directory"];
    Command::new("make").args(old).args(arguments).current_dir(root()).output().expect("make is needed")
}

#[test]
fn help_lists_every_target() {
    let help = text(&make(&["help"]));
    let makefile = fs::read_to_string(root().join("Makefile")).expect("Makefile");
    let phony = makefile.lines().find_map(|line| line.strip_prefix(".PHONY: ")).expect("targets");
    for target in phony.split(' ').filter(|target| *target != "sample").chain(["bench"]) {
        assert!(help.lines().any(|line| line.starts_with(&format!("make {target} "))), "no {target} in:\n{help}");
    }
}

/// The installed header, archive and pkg-config file build the README's program.
#[test]
fn what_is_installed_works() {
    if !root().join("host/target/release/store-reader").exists() {
        not_installed("the command, built in host/target/release,");
        return;
    }
    let (staging, prefix) = (fresh("staging"), "/opt/nwk");
    let installed = make(&["install", &format!("PREFIX={prefix}"), &format!("DESTDIR={}", staging.display())]);
    assert!(installed.status.success(), "{}", text(&installed));
    let at = |path: &str| staging.join("opt/nwk").join(path);
    for path in ["share/man/man1/store-reader.1", "share/bash-completion/completions/store-reader"] {
        assert!(at(path).is_file(), "{path} is not installed");
    }
    let version = Command::new(at("bin/store-reader")).arg("-V").output().expect("the installed command");
    assert!(version.status.success());
    let pc = fs::read_to_string(at("lib/pkgconfig/nwk.pc")).expect("nwk.pc");
    assert!(
        pc.contains(&format!("prefix={prefix}\n")) && pc.contains(&format!("Version: {}\n", env!("CARGO_PKG_VERSION")))
    );
    let asked = Command::new("pkg-config")
        .args(["--define-variable", &format!("prefix={}", at("").display()), "--cflags", "--libs", "nwk"])
        .env("PKG_CONFIG_PATH", at("lib/pkgconfig"))
        .output();
    let Ok(flags) = asked else {
        not_installed("pkg-config");
        return;
    };
    let flags = String::from_utf8(flags.stdout).expect("UTF-8");
    let program = staging.join("header");
    let compiled = Command::new("cc")
        .arg(root().join("tests/header.c"))
        .args(flags.split_whitespace())
        .arg("-o")
        .arg(&program)
        .output()
        .expect("cc is needed");
    assert!(compiled.status.success(), "{}", text(&compiled));
    assert!(Command::new(program).output().expect("the program").status.success());
}

/// Header, archive and pkg-config file are installed without Rust and without the command, the archive where LIBDIR says.
#[test]
fn the_codec_alone_is_installed() {
    let staging = fresh("staging-codec");
    let to = format!("DESTDIR={}", staging.display());
    for (libdir, in_file) in [("/opt/nwk/lib64", "libdir=${prefix}/lib64\n"), ("/srv/lib", "libdir=/srv/lib\n")] {
        let installed = make(&["install-codec", "PREFIX=/opt/nwk", &format!("LIBDIR={libdir}"), &to]);
        assert!(installed.status.success(), "{}", text(&installed));
        let at = |path: &str| staging.join(path.trim_start_matches('/'));
        assert!(at(&format!("{libdir}/libnwk.a")).is_file() && at("/opt/nwk/include/nwk.h").is_file());
        assert!(at("/opt/nwk/include/nwk_null.h").is_file(), "nwk.h includes it");
        let pc = fs::read_to_string(at(&format!("{libdir}/pkgconfig/nwk.pc"))).expect("nwk.pc");
        assert!(pc.contains("prefix=/opt/nwk\n") && pc.contains(in_file), "{pc}");
        assert!(!at("/opt/nwk/bin").exists(), "the command is installed too");
    }
    let said = text(&lacking("lacking-codec", &["rt"], "install-codec"));
    assert!(said.contains("ten minutes") && !said.contains("cargo is missing"), "{said}");
}

/// Each crate is told as it is proved, with how many there are: a toolchain that proves two, and leaves no archive.
#[test]
fn crates_are_counted() {
    let crates = fs::read_to_string(root().join("crates.txt")).expect("crates.txt");
    let up_to_exports = crates.lines().take_while(|line| !line.starts_with("nwk_c ")).filter(|line| line.contains(':'));
    let all = up_to_exports.filter(|line| !line.starts_with('#')).count() + 1;
    let proved = "fn a: proved\\ncrate octets: modules loaded=6\\nlogic=proved functions=1\\ncrate types: modules loaded=7\\nlogic=proved\\n";
    let script = &format!("#!/bin/sh\n[ $1 = version ] || printf '{proved}'\n");
    let said = text(&lacking_with("lacking-count", &[("rt", script)], "archive"));
    let told = format!("octets proved, 1 of {all}\ntypes proved, 2 of {all}\n");
    assert!(said.contains(&told), "{said}");
}

/// A repository with no archive, and a path with the plain tools and these.
fn lacking(name: &str, tools: &[&str], target: &str) -> Output {
    let tools: Vec<(&str, &str)> = tools.iter().map(|tool| (*tool, "#!/bin/sh\nexit 1\n")).collect();
    lacking_with(name, &tools, target)
}

/// The same where the tools are these scripts.
fn lacking_with(name: &str, tools: &[(&str, &str)], target: &str) -> Output {
    let folder = fresh(name);
    for path in ["Makefile", "crates.txt", "bench/bench.mk", "host/Cargo.toml", "host/Cargo.lock", "host/build.rs"] {
        let to = folder.join(path);
        fs::create_dir_all(to.parent().expect("a folder")).expect("a folder");
        fs::copy(root().join(path), to).expect(path);
    }
    for path in ["crates/nwk_c", "host/src", "bin"] {
        fs::create_dir_all(folder.join(path)).expect("a folder");
    }
    let plain =
        ["bash", "sh", "sed", "find", "grep", "cat", "echo", "mktemp", "rm", "tee", "touch", "tail", "nm", "cc"];
    let places = std::env::var("PATH").unwrap_or_default();
    for tool in plain {
        let found = places.split(':').map(|place| Path::new(place).join(tool)).find(|path| path.is_file());
        if let Some(path) = found {
            symlink(path, folder.join("bin").join(tool)).expect("a link");
        }
    }
    for (tool, script) in tools {
        let path = folder.join("bin").join(tool);
        fs::write(&path, script).expect("a script");
        fs::set_permissions(&path, fs::Permissions::from_mode(0o755)).expect("a program");
    }
    let make = places.split(':').map(|place| Path::new(place).join("make")).find(|path| path.is_file()).expect("make");
    let mut command = Command::new(make);
    command.arg(target).current_dir(&folder).env("PATH", folder.join("bin")).env("HOME", &folder);
    let output = command.output().expect("make is needed");
    // A second crates.txt below the repository would be taken for crates of its own.
    fs::remove_dir_all(&folder).expect("the folder is removed");
    output
}

#[test]
fn what_is_missing_is_said_first() {
    for (tools, target, missing) in [
        (&[][..], "sample", "rt is missing: put the Rattle toolchain on the path"),
        (&["rt"], "sample", "cargo is missing: put Rust on the path"),
        (&["rt"], "test", "cargo is missing: put Rust on the path"),
        (&[], "archive", "rt is missing: put the Rattle toolchain on the path"),
    ] {
        let ran = lacking(&format!("lacking-{target}-{}", tools.len()), tools, target);
        let said = text(&ran);
        assert!(!ran.status.success() && said.contains(missing), "{target}: {said}");
        assert!(!said.contains("ten minutes"), "{target}: {said}");
    }
    // The archive alone needs no Rust; a toolchain that does not say the pinned version is named.
    let said = text(&lacking("lacking-nothing", &["rt"], "archive"));
    assert!(said.contains("ten minutes") && said.contains("rt is another than rattle-kit"), "{said}");
}

/// The README names the toolchain that the Makefile compares with.
#[test]
fn the_toolchain_is_pinned_once() {
    let read = |path: &str| fs::read_to_string(root().join(path)).expect(path);
    let makefile = read("Makefile");
    let pinned = makefile.lines().find_map(|line| line.strip_prefix("TOOLCHAIN := ")).expect("a toolchain");
    assert!(read("README.md").contains(&format!("`{pinned}`")), "README.md does not name {pinned}");
}
