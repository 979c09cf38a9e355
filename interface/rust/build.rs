//! Says where the archive is: in the folder that RATION_TABLE_LIB names, else where `interface/make-archive` puts it.

use std::env;
use std::path::PathBuf;

fn main() {
    println!("cargo:rerun-if-env-changed=RATION_TABLE_LIB");
    let set = |name: &str| env::var(name).unwrap_or_default();
    let folder = match env::var_os("RATION_TABLE_LIB") {
        Some(folder) => PathBuf::from(folder),
        None => {
            let target = (set("CARGO_CFG_TARGET_ARCH"), set("CARGO_CFG_TARGET_OS"));
            assert!(
                target == ("x86_64".into(), "linux".into()),
                "the proved archive is for x86-64 Linux: for this target compile interface/baseline/table.c, which is not \
                 proved, to libration_table.a and set RATION_TABLE_LIB to its folder"
            );
            PathBuf::from(set("CARGO_MANIFEST_DIR")).join("../../target/staticlib")
        }
    };
    let archive = folder.join("libration_table.a");
    assert!(
        folder.is_absolute() && archive.is_file(),
        "no {}: make it by `interface/make-archive`, or set RATION_TABLE_LIB to its folder, from / on",
        archive.display()
    );
    println!("cargo:rerun-if-changed={}", archive.display());
    println!("cargo:rustc-link-search=native={}", folder.display());
}
