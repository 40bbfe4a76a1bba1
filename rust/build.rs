//! Finds the static library, or has `rt` prove and build it, and links it in.

use std::path::{Path, PathBuf};
use std::process::{Command, Stdio};
use std::{env, fs};

/// Names a folder with a libexports.a to take, instead of the repository's own.
const FOLDER: &str = "CCITT_LIBRARY";
const FILE: &str = "libexports.a";
/// In its place: nothing is linked. Enough for `cargo doc` and `cargo check`, and for no program.
const NO_LIBRARY: &str = "none";

/// What is called of it. A library without one of these is older than this package.
const FUNCTIONS: [&str; 17] = [
    "ccitt_decode_group4",
    "ccitt_decode_group3_1d",
    "ccitt_decode_group3_2d",
    "ccitt_check_group4",
    "ccitt_check_group3_1d",
    "ccitt_check_group3_2d",
    "ccitt_read_line",
    "ccitt_read_row",
    "ccitt_read_units",
    "ccitt_write_line",
    "ccitt_write_page",
    "ccitt_write_group3_1d",
    "ccitt_write_group3_2d",
    "ccitt_paint",
    "ccitt_unpaint",
    "ccitt_heads",
    "ccitt_verdict",
];

/// Processors by cargo's names, and by the numbers that ELF has for them.
const MACHINES: [(&str, u16); 2] = [(OURS, 62), ("aarch64", 183)];
/// What `rt` builds for; `native` compiles its library for the other one.
const OURS: &str = "x86_64";

fn main() {
    println!("cargo:rerun-if-env-changed={FOLDER}");
    println!("cargo:rerun-if-env-changed=DOCS_RS");
    if env::var_os("DOCS_RS").is_some() || env::var_os(FOLDER).is_some_and(|folder| folder == NO_LIBRARY) {
        return;
    }
    if let Err(missing) = link() {
        eprintln!("\nhayro-ccitt (the proved one): {missing}\n");
        std::process::exit(1);
    }
}

fn link() -> Result<(), String> {
    let arch = target()?;
    let folder = match env::var_os(FOLDER).filter(|folder| !folder.is_empty()) {
        Some(folder) => named(PathBuf::from(folder))?,
        None if MACHINES.iter().any(|(name, _)| *name == arch) => of_repository(&arch)?,
        None => {
            return Err(format!(
                "the library is for x86-64 and Arm, and this is a build for {arch}. \
                 Name a folder with a {FILE} for {arch} in {FOLDER}."
            ));
        }
    };
    let file = folder.join(FILE);
    println!("cargo:rerun-if-changed={}", file.display());
    let bytes = fs::read(&file).map_err(|error| format!("{} cannot be read: {error}.", file.display()))?;
    test_machine(&file, &bytes, &arch)?;
    test_functions(&file, &bytes)?;
    println!("cargo:rustc-link-search=native={}", folder.display());
    println!("cargo:rustc-link-lib=static=exports");
    Ok(())
}

/// The processor that is built for, unless the library cannot be called there: it is an ELF file, its numbers have 64 bits, and it is called as System V has it.
fn target() -> Result<String, String> {
    let of = |name: &str| env::var(format!("CARGO_CFG_TARGET_{name}")).unwrap_or_default();
    let (arch, width, endian, system, vendor) = (of("ARCH"), of("POINTER_WIDTH"), of("ENDIAN"), of("OS"), of("VENDOR"));
    if width != "64" || endian != "little" {
        return Err(format!(
            "{FILE} has 64-bit pointers and is little-endian, and this is a build for {arch}, {width}-bit and {endian}-endian."
        ));
    }
    if ["windows", "uefi", "cygwin"].contains(&system.as_str()) || vendor == "apple" {
        return Err(format!(
            "{FILE} is for systems with ELF and the System V calling convention, as Linux, and this is a build for {system}."
        ));
    }
    Ok(arch)
}

/// The first object in the library says which processor it is for.
fn test_machine(file: &Path, bytes: &[u8], arch: &str) -> Result<(), String> {
    let number = bytes.windows(20).find(|part| part.starts_with(b"\x7fELF")).map(|head| u16::from_le_bytes([head[18], head[19]]));
    let wanted = MACHINES.iter().find(|(name, _)| *name == arch).map(|&(_, number)| number);
    if wanted.is_some() && number == wanted {
        return Ok(());
    }
    let named = MACHINES.iter().find(|&&(_, known)| number == Some(known)).map_or("another processor", |&(name, _)| name);
    Err(format!("{} is for {named}, and this is a build for {arch}.", file.display()))
}

fn named(folder: PathBuf) -> Result<PathBuf, String> {
    if !folder.is_dir() {
        return Err(format!("{FOLDER} names {}, which is no folder.", folder.display()));
    }
    // the linker is not started in this folder
    let whole = folder.canonicalize().unwrap_or(folder);
    if whole.join(FILE).is_file() { Ok(whole) } else { Err(format!("{FOLDER} names {}, and there is no {FILE} there.", whole.display())) }
}

/// The folder of target/ that the library for a processor is built into, and the words that build it.
fn made_for(arch: &str) -> (String, Vec<String>) {
    if arch == OURS {
        return ("staticlib".into(), vec!["sh".into(), "library".into()]);
    }
    let host = env::var("HOST").unwrap_or_default();
    let folder = if host.starts_with(arch) { "native".into() } else { format!("native-{arch}") };
    (folder, vec!["bash".into(), "native".into(), arch.into()])
}

/// The repository's own library, which `rt` proves and builds where it is not there.
fn of_repository(arch: &str) -> Result<PathBuf, String> {
    let package = PathBuf::from(env::var_os("CARGO_MANIFEST_DIR").expect("cargo says where the package is"));
    let root = package.parent().expect("the package lies in the repository").to_path_buf();
    let (name, words) = made_for(arch);
    let folder = root.join("target").join(name);
    let header = root.join("include").join("ccitt.h");
    println!("cargo:rerun-if-changed={}", header.display());
    if !folder.join(FILE).is_file() {
        prove(&root, &folder, &words)?;
    } else if is_newer(&header, &folder.join(FILE)) {
        println!(
            "cargo:warning={FILE} is older than include/ccitt.h: if the interface has changed, run `{}` in {}",
            words.join(" "),
            root.display()
        );
    }
    Ok(folder)
}

fn is_newer(one: &Path, other: &Path) -> bool {
    let time = |path: &Path| fs::metadata(path).and_then(|data| data.modified()).ok();
    matches!((time(one), time(other)), (Some(one), Some(other)) if one > other)
}

fn prove(root: &Path, folder: &Path, words: &[String]) -> Result<(), String> {
    let lacking = format!("there is no {FILE} in {}", folder.display());
    let instead = format!("Or name a folder that has one in {FOLDER}.");
    if !root.join("crates.txt").is_file() {
        return Err(format!(
            "{lacking}, and {} is not the repository that it is built from. Name a folder that has one in {FOLDER}.",
            root.display()
        ));
    }
    let command = words.join(" ");
    let run = Command::new(&words[0]).args(&words[1..]).current_dir(root).stdin(Stdio::null()).output();
    match run {
        Err(error) => Err(format!(
            "{lacking}, and `{command}`, which proves and builds it, could not be started ({error}): \
             put the Rattle toolchain's rt on the PATH. {instead}"
        )),
        Ok(done) if done.status.success() && folder.join(FILE).is_file() => Ok(()),
        Ok(done) => Err(format!(
            "{lacking}, and `{command}` in {} did not build it ({}):\n{}{}\n{instead}",
            root.display(),
            done.status,
            String::from_utf8_lossy(&done.stdout),
            String::from_utf8_lossy(&done.stderr)
        )),
    }
}

fn test_functions(file: &Path, bytes: &[u8]) -> Result<(), String> {
    let has = |name: &str| bytes.windows(name.len()).any(|part| part == name.as_bytes());
    match FUNCTIONS.iter().find(|name| !has(name)) {
        None => Ok(()),
        Some(name) => Err(format!(
            "{} has no {name}: it is older than this package. `./library` in the repository, or on Arm `./native`, builds it anew.",
            file.display()
        )),
    }
}
