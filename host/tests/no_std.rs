//! Without its feature `std` the library compiles with nothing but `core`: the journal in a file is all that the feature adds.
use std::path::Path;
use std::process::{Command, Output};

/// Compiles the library, without linking it.
fn compiled(name: &str, cfg: &[&str]) -> Output {
    let rustc = std::env::var_os("RUSTC").unwrap_or("rustc".into());
    let (folder, out) = (Path::new(env!("CARGO_MANIFEST_DIR")), Path::new(env!("CARGO_TARGET_TMPDIR")).join(name));
    let mut command = Command::new(rustc);
    command.args(["--edition", "2021", "--crate-type", "rlib", "--crate-name", "store_reader", "--emit", "metadata"]);
    command.args(cfg).arg("-o").arg(out).arg(folder.join("src/lib.rs")).output().expect("rustc starts")
}

#[test]
fn the_library_needs_no_std() {
    for (name, cfg) in [("without_std.rmeta", &[][..]), ("with_std.rmeta", &["--cfg", "feature=\"std\""])] {
        let output = compiled(name, cfg);
        assert!(output.status.success(), "{name}: {}", String::from_utf8_lossy(&output.stderr));
    }
}

/// In the library itself the standard library is named in one place, behind the feature.
#[test]
fn the_standard_library_is_behind_the_feature() {
    let source = include_str!("../src/lib.rs");
    assert_eq!(source.matches("\n#![no_std]\n").count(), 1);
    assert_eq!(source.matches("extern crate").count(), 1);
    assert!(source.contains("#[cfg(feature = \"std\")]\nextern crate std;\n"));
}
