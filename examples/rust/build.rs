//! Where the static library is: the folder that RIDDOSKAM_LIB names, or the one into which `tools/library` writes. What is missing is said before the
//! linker would say it in other words.
use std::path::{absolute, Path, PathBuf};
use std::{env, fs};

const LIBRARY: &str = "libriddoskam.a";

/// The function that came last: a library without it is older than this crate.
const LAST: &[u8] = b"riddoskam_put";

/// The processors that a 64-bit ELF object may be for, as Rust calls them, with the number by which the object says so.
const MACHINES: [(&str, u16); 5] = [("x86_64", 62), ("aarch64", 183), ("riscv64", 243), ("powerpc64", 21), ("s390x", 22)];

fn main() {
    println!("cargo:rerun-if-env-changed=RIDDOSKAM_LIB");
    match library() {
        Ok(folder) => {
            println!("cargo:rustc-link-search=native={}", folder.display());
            println!("cargo:rustc-link-lib=static=riddoskam");
        }
        Err(why) => println!("cargo::error={why}"),
    }
}

/// The folder of the library, or what is wrong, in one line.
fn library() -> Result<PathBuf, String> {
    let folder = folder()?;
    let file = folder.join(LIBRARY);
    println!("cargo:rerun-if-changed={}", file.display());
    let bytes = fs::read(&file).map_err(|why| {
        let told = if named().is_some() {
            "RIDDOSKAM_LIB must name the folder of the library"
        } else {
            "make it by `tools/library`, or name its folder in RIDDOSKAM_LIB"
        };
        format!("{} can't be read ({why}): {told}", file.display())
    })?;
    fits(&file, &bytes)?;
    Ok(folder)
}

fn named() -> Option<PathBuf> {
    env::var_os("RIDDOSKAM_LIB").map(PathBuf::from)
}

fn folder() -> Result<PathBuf, String> {
    let target = env::var("TARGET").unwrap_or_default();
    match named() {
        Some(folder) if folder.as_os_str().is_empty() => Err("RIDDOSKAM_LIB is empty: it must name the folder of the library, or not be set".into()),
        // A relative one is relative to this crate: that is where cargo runs this.
        Some(folder) => absolute(&folder).map_err(|why| format!("RIDDOSKAM_LIB is {}: {why}", folder.display())),
        None if target.starts_with("x86_64-") && target.contains("-linux-") => Ok(made_here()),
        None => Err(format!(
            "`tools/library` makes a library for x86-64 Linux, and this is a build for {target}: \
             build with --target x86_64-unknown-linux-gnu, or name the folder of a library for {target} in RIDDOSKAM_LIB"
        )),
    }
}

/// Where `tools/library` writes.
fn made_here() -> PathBuf {
    let root = Path::new(env!("CARGO_MANIFEST_DIR")).join("../..");
    root.canonicalize().unwrap_or(root).join("target/staticlib")
}

/// Whether the library is this processor's, and has all that this crate calls.
fn fits(file: &Path, bytes: &[u8]) -> Result<(), String> {
    let arch = env::var("CARGO_CFG_TARGET_ARCH").unwrap_or_default();
    let due = MACHINES.iter().find(|(name, _)| *name == arch);
    if let (Some((_, due)), Some(found)) = (due, machine(bytes)) {
        if found != *due {
            let found = MACHINES.iter().find(|(_, number)| *number == found).map_or("another processor", |(name, _)| name);
            return Err(format!("{} is for {found}, and this is a build for {arch}: name the folder of another in RIDDOSKAM_LIB", file.display()));
        }
    }
    if !bytes.windows(LAST.len()).any(|name| name == LAST) {
        return Err(format!(
            "{} is older than this crate, or another library: it has no {}; make it anew by `tools/library`",
            file.display(),
            String::from_utf8_lossy(LAST)
        ));
    }
    Ok(())
}

/// The processor of the first object in an archive, if that is ELF.
fn machine(archive: &[u8]) -> Option<u16> {
    let at = archive.windows(4).position(|four| four == b"\x7fELF")?;
    let object = archive.get(at..)?;
    let number = [*object.get(18)?, *object.get(19)?];
    // The sixth byte says in which order they stand.
    Some(if object.get(5)? == &2 { u16::from_be_bytes(number) } else { u16::from_le_bytes(number) })
}
