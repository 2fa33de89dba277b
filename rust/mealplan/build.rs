//! Links the static library that `bash tests/library` proves and writes. `MEALPLAN_LIB` names its folder; without it the
//! repository's own target/staticlib is taken.
use std::env;
use std::path::PathBuf;

fn main() {
    println!("cargo:rerun-if-env-changed=MEALPLAN_LIB");
    let given = env::var_os("MEALPLAN_LIB").map(PathBuf::from);
    let folder =
        given.unwrap_or_else(|| [env!("CARGO_MANIFEST_DIR"), "..", "..", "target", "staticlib"].iter().collect());
    let library = folder.join("libmealplan.a");
    let Ok(library) = library.canonicalize() else {
        panic!("no library at {}: run `bash tests/library`, or name its folder in MEALPLAN_LIB", library.display());
    };
    println!("cargo:rerun-if-changed={}", library.display());
    println!("cargo:rustc-link-search=native={}", library.parent().expect("a file has a folder").display());
    println!("cargo:rustc-link-lib=static=mealplan");
}
