//! Tells the benchmark its compiler, and links the archive that `BASELINE` names by a whole path, if it names one. The archive exports the
//! library's names, so in a copy all that it exports is renamed: `plan_walk` to `baseline_plan_walk`. `nm`, `objcopy` and `readelf` do it.
use std::env;
use std::fs;
use std::path::{Path, PathBuf};
use std::process::Command;

/// What the benchmark calls.
const CALLED: [&str; 3] = ["plan_check", "plan_measure", "plan_walk"];

fn main() {
    println!("cargo:rerun-if-changed=build.rs");
    println!("cargo:rerun-if-env-changed=BASELINE");
    println!("cargo:rustc-check-cfg=cfg(baseline)");
    let rustc = env::var_os("RUSTC").expect("cargo names the compiler");
    println!("cargo:rustc-env=BENCH_COMPILER={}", said(Command::new(rustc).arg("--version")).trim());
    if let Some(named) = env::var_os("BASELINE").filter(|named| !named.is_empty()) {
        link(Path::new(&named));
    }
}

/// Links the archive with its names changed.
fn link(archive: &Path) {
    assert!(
        archive.is_absolute() && archive.is_file(),
        "BASELINE names no archive by a whole path: {}",
        archive.display()
    );
    println!("cargo:rerun-if-changed={}", archive.display());
    let names = exported(archive);
    for name in CALLED {
        assert!(names.iter().any(|exported| exported == name), "{} exports no {name}", archive.display());
    }
    let renamed = renamed(archive, &names);
    println!("cargo:rustc-cfg=baseline");
    println!("cargo:rustc-link-arg-bins={}", renamed.display());
    println!("cargo:rustc-env=BASELINE_COMPILER={}", compilers(archive).join(", "));
}

/// The names that an archive's objects define for others.
fn exported(archive: &Path) -> Vec<String> {
    let listed = said(Command::new("nm").args(["--extern-only", "--defined-only", "--format=posix"]).arg(archive));
    // A line is a name, its type, its value and its size; or it names an object and ends with a colon.
    let lines = listed.lines().filter(|line| !line.ends_with(':'));
    lines.filter_map(|line| line.split_whitespace().next()).map(str::to_string).collect()
}

/// A copy of the archive where these names are others, wherever they stand.
fn renamed(archive: &Path, names: &[String]) -> PathBuf {
    let folder = PathBuf::from(env::var_os("OUT_DIR").expect("cargo names a folder"));
    let (list, copy) = (folder.join("names.txt"), folder.join("libbaseline.a"));
    let lines: String = names.iter().map(|name| format!("{name} baseline_{name}\n")).collect();
    fs::write(&list, lines).expect("the folder takes a list");
    // An earlier copy may be read-only, as its archive was.
    fs::remove_file(&copy).ok();
    said(Command::new("objcopy").arg("--redefine-syms").arg(&list).arg(archive).arg(&copy));
    copy
}

/// What the archive's objects name as their compilers, each once.
fn compilers(archive: &Path) -> Vec<String> {
    let dumped = said(Command::new("readelf").args(["--wide", "--string-dump=.comment"]).arg(archive));
    let named = dumped.lines().filter_map(|line| line.trim_start().strip_prefix('[')?.split_once(']'));
    let mut compilers: Vec<String> = named.map(|(_, compiler)| compiler.trim().to_string()).collect();
    compilers.sort();
    compilers.dedup();
    compilers
}

/// What a command says; it must end well.
fn said(command: &mut Command) -> String {
    let output = command.output().unwrap_or_else(|error| panic!("{command:?}: {error}"));
    assert!(output.status.success(), "{command:?}: {}", String::from_utf8_lossy(&output.stderr));
    String::from_utf8_lossy(&output.stdout).into_owned()
}
