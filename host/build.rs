//! Links the planner's archive, and the C files of c/ compiled at -O3 by gcc and, where it is there, by clang.
use std::env;
use std::path::{Path, PathBuf};
use std::process::Command;

fn run(command: &mut Command) {
    let status = command.status().unwrap_or_else(|e| panic!("{command:?}: {e}"));
    assert!(status.success(), "{command:?}: {status}");
}

/// Compiles the C files that the library is measured against, with the compiler's name before that of each function.
fn compile_plain(compiler: &str, out: &Path) {
    let prefix = format!("-DPLAIN(name)={compiler}_##name");
    for file in ["plain", "saver"] {
        let source = PathBuf::from(format!("c/{file}.c"));
        compile(compiler, &source, &format!("{file}_{compiler}"), &[&prefix], out);
    }
}

/// Compiles a C file into an archive of its own, so that nothing is inlined across the boundary.
fn compile(compiler: &str, source: &Path, name: &str, flags: &[&str], out: &Path) {
    let object = out.join(format!("{name}.o"));
    let archive = out.join(format!("lib{name}.a"));
    run(Command::new(compiler)
        .args(["-O3", "-std=c11", "-Wall", "-Wextra", "-Werror", "-I../include"])
        .args(flags)
        .arg("-c")
        .arg(source)
        .arg("-o")
        .arg(&object));
    run(Command::new("ar").arg("rcs").arg(&archive).arg(&object));
    println!("cargo:rustc-link-lib=static={name}");
}

fn main() {
    let out = PathBuf::from(env::var("OUT_DIR").unwrap());
    let library = env::var("DOCKPLAN_LIB").unwrap_or_else(|_| "../target/lib".into());
    let library =
        std::fs::canonicalize(&library).unwrap_or_else(|_| panic!("{library} is not there: 'make host' builds it"));
    println!("cargo:rustc-link-search=native={}", library.display());
    println!("cargo:rustc-link-lib=static=dockplan");
    println!(
        "cargo:rustc-env=DOCKPLAN_ARCHIVE={}",
        library.join("libdockplan.a").display()
    );
    println!("cargo:rerun-if-changed={}", library.join("libdockplan.a").display());
    println!("cargo:rerun-if-env-changed=DOCKPLAN_LIB");

    println!("cargo:rustc-link-search=native={}", out.display());
    println!("cargo:rerun-if-changed=c");
    println!("cargo:rerun-if-changed=../include");
    compile_plain("gcc", &out);
    println!("cargo:rustc-check-cfg=cfg(clang)");
    if Command::new("clang").arg("--version").output().is_ok() {
        compile_plain("clang", &out);
        println!("cargo:rustc-cfg=clang");
    }
    compile("gcc", Path::new("c/stack.c"), "stack", &[], &out);
}
