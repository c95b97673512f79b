//! With the feature `archive`: link libcellpool.a, and where a C compiler is found the C baseline of the benchmark; make
//! the program runscript in plain C.
//!
//! CELLPOOL_LIB_DIR names another directory of the archive; CC another C compiler. CELLPOOL_BEFORE_DIR names the directory of an
//! archive of an earlier version, which the benchmark then has beside this one; what it lacks is left out.

use std::env;
use std::ffi::OsStr;
use std::path::{Path, PathBuf};
use std::process::Command;

fn main() {
    println!("cargo:rustc-check-cfg=cfg(c_baseline)");
    println!("cargo:rerun-if-changed=build.rs");
    println!("cargo:rustc-check-cfg=cfg(before)");
    println!("cargo:rustc-check-cfg=cfg(before_has_points)");
    println!("cargo:rerun-if-env-changed=CELLPOOL_LIB_DIR");
    println!("cargo:rerun-if-env-changed=CELLPOOL_BEFORE_DIR");
    println!("cargo:rerun-if-env-changed=CC");
    println!("cargo:rerun-if-env-changed=CXX");
    println!("cargo:rustc-check-cfg=cfg(cpp_compiler)");
    if env::var_os("CARGO_FEATURE_ARCHIVE").is_none() {
        return;
    }
    link_archive();
    if let Some(dir) = env::var_os("CELLPOOL_BEFORE_DIR") {
        link_before(&PathBuf::from(dir).join("libcellpool.a"));
    }
    if build_c_baseline() {
        println!("cargo:rustc-cfg=c_baseline");
    } else {
        println!("cargo:warning=no C compiler: no C baseline, and tests/c_programs.rs is left out");
    }
    if answers(&env::var_os("CXX").unwrap_or_else(|| "c++".into())) {
        println!("cargo:rustc-cfg=cpp_compiler");
    } else {
        println!("cargo:warning=no C++ compiler: the header is not tried from C++");
    }
}

/// Is there such a compiler?
fn answers(compiler: &OsStr) -> bool {
    matches!(Command::new(compiler).arg("--version").output(), Ok(output) if output.status.success())
}

fn manifest_dir() -> PathBuf {
    PathBuf::from(env::var_os("CARGO_MANIFEST_DIR").expect("cargo sets CARGO_MANIFEST_DIR"))
}

fn link_archive() {
    let dir = match env::var_os("CELLPOOL_LIB_DIR") {
        Some(dir) => PathBuf::from(dir),
        None => manifest_dir().join("../crates/cellpool/out"),
    };
    let archive = dir.join("libcellpool.a");
    if !archive.is_file() {
        panic!("{} is missing: build the static library first", archive.display());
    }
    println!("cargo:rerun-if-changed={}", archive.display());
    println!("cargo:rustc-link-search=native={}", dir.display());
    println!("cargo:rustc-link-lib=static=cellpool");
    println!("cargo:rustc-env=CELLPOOL_ARCHIVE={}", archive.display());
}

/// Link a second archive, whose functions get the prefix `before_`; what it takes from the C library keeps its name.
fn link_before(archive: &Path) {
    println!("cargo:rerun-if-changed={}", archive.display());
    let out = PathBuf::from(env::var_os("OUT_DIR").expect("cargo sets OUT_DIR"));
    let renamed = out.join("libcellpool_before.a");
    for options in [["--prefix-symbols", "before_"], ["--redefine-sym", "before_memset=memset"]] {
        let from = if options[0] == "--prefix-symbols" { archive } else { &renamed };
        let made = Command::new("objcopy").args(options).arg(from).arg(&renamed).status();
        assert!(matches!(made, Ok(status) if status.success()), "objcopy renames nothing in {}", from.display());
    }
    println!("cargo:rustc-link-search=native={}", out.display());
    println!("cargo:rustc-link-lib=static=cellpool_before");
    println!("cargo:rustc-cfg=before");
    let listed = Command::new("nm").arg(&renamed).output().expect("nm is beside objcopy");
    if String::from_utf8_lossy(&listed.stdout).contains(" T before_cellpool_point\n") {
        println!("cargo:rustc-cfg=before_has_points");
    }
}

/// Compile C files into an object or a program.
fn compile(cc: &OsStr, options: &[&str], sources: &[&Path], result: &Path) {
    let include = manifest_dir().join("../include");
    println!("cargo:rerun-if-changed={}", include.display());
    let compiled = Command::new(cc)
        .args(["-std=c99", "-O2", "-Wall", "-Wextra", "-Werror"])
        .args(options)
        .arg("-I")
        .arg(&include)
        .args(sources)
        .arg("-o")
        .arg(result)
        .status();
    assert!(matches!(compiled, Ok(status) if status.success()), "{} is not made of {sources:?}", result.display());
}

fn build_c_baseline() -> bool {
    let source = manifest_dir().join("baseline/baseline.c");
    println!("cargo:rerun-if-changed={}", manifest_dir().join("baseline").display());
    let out = PathBuf::from(env::var_os("OUT_DIR").expect("cargo sets OUT_DIR"));
    let object = out.join("baseline.o");
    let archive = out.join("libcellpool_baseline.a");
    let cc = env::var_os("CC").unwrap_or_else(|| "cc".into());
    if !answers(&cc) {
        return false;
    }
    compile(&cc, &["-fPIC", "-c"], &[&source], &object);
    let script = manifest_dir().join("baseline/runscript.c");
    let program = out.join("plain_runscript");
    compile(&cc, &["-DBASELINE_AS_CELLPOOL"], &[&source, &script], &program);
    println!("cargo:rustc-env=PLAIN_RUNSCRIPT={}", program.display());
    let _ = std::fs::remove_file(&archive);
    let packed = Command::new("ar").arg("crs").arg(&archive).arg(&object).status();
    assert!(matches!(packed, Ok(status) if status.success()), "ar makes no archive of {}", object.display());
    println!("cargo:rustc-link-search=native={}", out.display());
    println!("cargo:rustc-link-lib=static=cellpool_baseline");
    true
}
