//! Finds the library libbidi_c: in the folder that BIDI_LIB_DIR names in full, or else in the crate's own folder
//! lib/MACHINE, which a release has for x86_64 and aarch64, or else in the one that pkg-config names. It links the
//! archives if the folder has them, or else the shared object; BIDI_LINK, `static` or `shared`, chooses. With `shared`
//! the crate's own folder is left out.
use std::env;
use std::path::{Path, PathBuf};
use std::process::Command;

const VARIABLES: [&str; 4] = ["BIDI_LIB_DIR", "BIDI_LINK", "PKG_CONFIG", "PKG_CONFIG_PATH"];

/// Returns the folder of the crate with the archives for the target, a Linux on x86_64 or aarch64.
fn own_folder(target: &str) -> Option<PathBuf> {
    let is_linux = ["-linux-gnu", "-linux-musl"].iter().any(|end| target.ends_with(end));
    let machine = target.split('-').next().filter(|_| is_linux)?;
    let folder = Path::new(&env::var_os("CARGO_MANIFEST_DIR")?).join("lib").join(machine);
    folder.exists().then_some(folder)
}

/// Returns the folder that pkg-config names. That is one of this machine.
fn installed_folder(target: &str) -> Result<PathBuf, String> {
    if env::var("HOST").ok().as_deref() != Some(target) {
        return Err(format!("no libbidi_c for {target}: name its folder in full in BIDI_LIB_DIR"));
    }
    let command = env::var("PKG_CONFIG").unwrap_or("pkg-config".to_string());
    let output = Command::new(&command)
        .args(["--print-errors", "--variable=libdir", "bidi_c"])
        .output()
        .map_err(|error| format!("no libbidi_c: set BIDI_LIB_DIR ({command}: {error})"))?;
    let folder = String::from_utf8_lossy(&output.stdout).trim().to_string();
    if !output.status.success() || folder.is_empty() {
        let reason = String::from_utf8_lossy(&output.stderr).trim().to_string();
        return Err(format!("no libbidi_c: name its folder in full in BIDI_LIB_DIR or PKG_CONFIG_PATH ({reason})"));
    }
    Ok(folder.into())
}

/// Returns the folder that BIDI_LIB_DIR names, or else the crate's own, or else the one that pkg-config names.
fn library_folder() -> Result<PathBuf, String> {
    let target = env::var("TARGET").map_err(|error| format!("no TARGET: {error}"))?;
    let is_shared = env::var("BIDI_LINK").is_ok_and(|link| link == "shared");
    match env::var_os("BIDI_LIB_DIR").filter(|name| !name.is_empty()).map(PathBuf::from) {
        None => own_folder(&target).filter(|_| !is_shared).map_or_else(|| installed_folder(&target), Ok),
        Some(folder) if folder.is_absolute() => Ok(folder),
        // cargo runs this program in the folder of the crate, not in the one where cargo was called.
        Some(folder) => Err(format!("BIDI_LIB_DIR is `{}`: name the folder in full, from /", folder.display())),
    }
}

/// Says whether to link the archives of a folder, and not its shared object.
fn links_archives(folder: &Path) -> Result<bool, String> {
    let has = |names: &[&str]| names.iter().all(|name| folder.join(name).exists());
    let archives = has(&["libbidi_c.a", "libbidi_c_heap.a"]);
    let shared = has(&["libbidi_c.so"]);
    match env::var("BIDI_LINK").unwrap_or_default().as_str() {
        "" if archives => Ok(true),
        "" if shared => Ok(false),
        "" => Err(format!("neither libbidi_c.a with libbidi_c_heap.a nor libbidi_c.so in {}", folder.display())),
        "static" if archives => Ok(true),
        "static" => Err(format!("no libbidi_c.a and libbidi_c_heap.a in {}", folder.display())),
        "shared" if shared => Ok(false),
        "shared" => Err(format!("no libbidi_c.so in {}", folder.display())),
        other => Err(format!("BIDI_LINK is `{other}`, neither `static` nor `shared`")),
    }
}

/// Names the library for the linker.
fn link() -> Result<(), String> {
    println!("cargo:rerun-if-changed=build.rs");
    if Path::new("lib").exists() {
        println!("cargo:rerun-if-changed=lib");
    }
    for name in VARIABLES {
        println!("cargo:rerun-if-env-changed={name}");
    }
    let folder = library_folder()?;
    let archives = links_archives(&folder)?;
    println!("cargo:rustc-link-search=native={}", folder.display());
    if archives {
        println!("cargo:rustc-link-lib=static=bidi_c");
        println!("cargo:rustc-link-lib=static=bidi_c_heap");
    } else {
        println!("cargo:rustc-link-lib=dylib=bidi_c");
    }
    Ok(())
}

fn main() {
    if let Err(error) = link() {
        eprintln!("{error}");
        std::process::exit(1);
    }
}
