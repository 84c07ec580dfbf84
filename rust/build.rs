//! Finds the static library, and the kit's functions by which it takes memory.
use std::env;
use std::path::{Path, PathBuf};

fn main() {
    println!("cargo:rerun-if-env-changed=LOQZEMAR_LIB_DIR");
    println!("cargo:rerun-if-env-changed=LOQ_HEAP");
    let library = library();
    let heap = heap();
    for file in [&library, &heap] {
        println!("cargo:rerun-if-changed={}", file.display());
        println!("cargo:rustc-link-search=native={}", parent(file).display());
    }
    println!("cargo:rustc-link-lib=static=loqzemar");
    println!("cargo:rustc-link-lib=static={}", name(&heap));
}

/// The folder of LOQZEMAR_LIB_DIR, or else crates/loqzemar/out, has libloqzemar.a.
fn library() -> PathBuf {
    let beside = Path::new(&env::var("CARGO_MANIFEST_DIR").unwrap()).join("../crates/loqzemar/out");
    let folder = env::var_os("LOQZEMAR_LIB_DIR").map_or(beside, PathBuf::from);
    let file = folder.join("libloqzemar.a");
    if !file.is_file() {
        stop(&format!(
            "{} isn't there. Run `rt lib` in the repository's folder crates/loqzemar, which proves the library and writes \
             crates/loqzemar/out/libloqzemar.a; or set LOQZEMAR_LIB_DIR to the folder that has libloqzemar.a",
            file.display()
        ));
    }
    file
}

/// LOQ_HEAP, or else the kit's c/liblibc_c.a where the kit's `rt` is on the path.
fn heap() -> PathBuf {
    let file = env::var_os("LOQ_HEAP").map(PathBuf::from).or_else(heap_of_kit);
    match file.filter(|file| file.is_file()) {
        Some(file) => file,
        None => stop("the kit's c/liblibc_c.a isn't found. Put the kit's folder bin on the path, so that `rt version` answers; or set LOQ_HEAP to that file"),
    }
}

fn heap_of_kit() -> Option<PathBuf> {
    let rt = env::split_paths(&env::var_os("PATH")?).map(|folder| folder.join("rt")).find(|rt| rt.is_file())?;
    Some(parent(parent(&rt.canonicalize().ok()?)).join("c/liblibc_c.a"))
}

fn parent(file: &Path) -> &Path {
    file.parent().unwrap_or(Path::new("."))
}

/// The name by which the linker finds a library: that of the file without `lib` and `.a`.
fn name(file: &Path) -> String {
    let stem = file.file_stem().unwrap_or_default().to_string_lossy();
    stem.strip_prefix("lib").unwrap_or(&stem).to_string()
}

fn stop(why: &str) -> ! {
    eprintln!("{why}");
    std::process::exit(1)
}
