//! Links the proved archives: libelvomike-trap.a, and beside it the one of each feature that asks for it; in the repository
//! libtrap.a and so on, as the kit names them. They are looked for in the folder that `MONITOR_ARCHIVE_FOLDER` names (a
//! relative one counts from where cargo is called), else in lib of the parcel, else in target/staticlib of the repository.
//! Where it is 'none', only what makes no call is built: names, lists, refusals. What is missing becomes an error of the
//! compiler, which every cargo shows in one line.
//!
//! The archives are code for x86-64 Linux. For another target, or where `MONITOR_FROM_SOURCE` is set, the C in source of the
//! parcel or the repository, the proved code translated, is compiled instead: by CC_<target>, else CC, else cc.

use std::env;
use std::path::{Path, PathBuf};
use std::process::Command;

const BESIDE: [&str; 7] = [
    "walks", "quick", "why", "screen", "compare", "tape", "delays",
];
const FOLDERS: [&str; 2] = ["../../lib", "../../target/staticlib"];
const SOURCE: &str = "../../source";
const FILES: [&str; 6] = ["monitor", "why", "screen", "compare", "tape", "delays"];
const NONE: &str = "or to 'none' for a build without the calls";

/// The library's name by which the folder has an archive: the parcel's, or the one that the kit gives it.
fn named(folder: &Path, archive: &str) -> Option<String> {
    let names = [format!("elvomike-{archive}"), archive.to_string()];
    names
        .into_iter()
        .find(|name| folder.join(format!("lib{name}.a")).is_file())
}

/// The folder of the archives, none where the build is to do without; or one line on what is missing and what to set.
fn folder() -> Result<Option<PathBuf>, String> {
    let has = |folder: &Path| named(folder, "trap").is_some();
    let asked = env::var("MONITOR_ARCHIVE_FOLDER").ok();
    match asked.as_deref() {
        Some("none") => Ok(None),
        Some(folder) if has(&called_from().join(folder)) => Ok(Some(called_from().join(folder))),
        Some(folder) => Err(format!(
            "libelvomike-trap.a isn't in the folder '{folder}', nor is libtrap.a: set MONITOR_ARCHIVE_FOLDER to the one that \
             has it, {NONE}."
        )),
        None => match FOLDERS.iter().map(PathBuf::from).find(|folder| has(folder)) {
            Some(folder) => Ok(Some(folder)),
            None => Err(format!(
                "libelvomike-trap.a isn't in {}, nor is libtrap.a in {}: let 'desk/archive trap' make it, or set \
                 MONITOR_ARCHIVE_FOLDER to the folder that has it, {NONE}.",
                FOLDERS[0], FOLDERS[1]
            )),
        },
    }
}

/// The folder that cargo was called from: that of the process which runs this one, else what the shell says, else this crate's.
fn called_from() -> PathBuf {
    #[cfg(unix)]
    let cargo =
        std::fs::read_link(format!("/proc/{}/cwd", std::os::unix::process::parent_id())).ok();
    #[cfg(not(unix))]
    let cargo = None;
    cargo
        .or_else(|| env::var_os("PWD").map(PathBuf::from))
        .unwrap_or_default()
}

/// Links one archive of the folder, or says in one line that it isn't there.
fn link(folder: &Path, archive: &str) -> Result<(), String> {
    let name = named(folder, archive).ok_or_else(|| {
        format!(
            "libelvomike-{archive}.a isn't in the folder '{}', nor is lib{archive}.a, and the feature '{archive}' wants it: \
             let 'desk/archive {archive}' make it, or set MONITOR_ARCHIVE_FOLDER to a folder that has it.",
            folder.display()
        )
    })?;
    println!("cargo:rerun-if-changed={}/lib{name}.a", folder.display());
    println!("cargo:rustc-link-lib=static={name}");
    Ok(())
}

/// Whether the C is compiled: the archives aren't for this target, or it is asked for; a folder of archives that is named wins.
fn from_source() -> bool {
    let is = |name: &str, value: &str| env::var(name).as_deref() == Ok(value);
    let for_linux = is("CARGO_CFG_TARGET_ARCH", "x86_64") && is("CARGO_CFG_TARGET_OS", "linux");
    env::var_os("MONITOR_ARCHIVE_FOLDER").is_none()
        && (!for_linux || env::var_os("MONITOR_FROM_SOURCE").is_some())
}

/// The tool for this target: by NAME_<target>, else NAME, else as it is usually called.
fn tool(name: &str, usual: &str) -> (String, String) {
    let target = env::var("TARGET").unwrap_or_default();
    let of_target = format!("{name}_{}", target.replace('-', "_"));
    for variable in [&format!("{name}_{target}"), &of_target, name] {
        println!("cargo:rerun-if-env-changed={variable}");
    }
    let found = env::var(format!("{name}_{target}"))
        .or_else(|_| env::var(&of_target))
        .or_else(|_| env::var(name));
    (found.unwrap_or_else(|_| usual.to_string()), of_target)
}

/// Runs a tool, or says in one line that it failed and what to set.
fn made(tool: &(String, String), words: &[&str], what: &str) -> Result<(), String> {
    match Command::new(&tool.0).args(words).status() {
        Ok(status) if status.success() => Ok(()),
        _ => Err(format!(
            "'{}' doesn't make {what}: set {} to one that does, {NONE}.",
            tool.0, tool.1
        )),
    }
}

/// Compiles the C and links it.
fn compile() -> Result<(), String> {
    let out = env::var("OUT_DIR").map_err(|error| error.to_string())?;
    let (compiler, archiver) = (tool("CC", "cc"), tool("AR", "ar"));
    let archive = format!("{out}/libelvomike.a");
    let mut objects = Vec::new();
    for name in FILES {
        let (file, object) = (format!("{SOURCE}/{name}.c"), format!("{out}/{name}.o"));
        println!("cargo:rerun-if-changed={file}");
        if !Path::new(&file).is_file() {
            return Err(format!("{file} isn't there: set MONITOR_ARCHIVE_FOLDER to a folder with archives for this target, {NONE}."));
        }
        made(
            &compiler,
            &[
                "-std=c99",
                "-O2",
                "-fPIC",
                "-I../../include",
                "-c",
                "-o",
                &object,
                &file,
            ],
            &file,
        )?;
        objects.push(object);
    }
    let _ = std::fs::remove_file(&archive);
    let mut words = vec!["rcs", archive.as_str()];
    words.extend(objects.iter().map(String::as_str));
    made(&archiver, &words, &archive)?;
    println!("cargo:rustc-link-search=native={out}");
    println!("cargo:rustc-link-lib=static=elvomike");
    println!("cargo:rustc-cfg=archive");
    Ok(())
}

fn run() -> Result<(), String> {
    if from_source() {
        return compile();
    }
    let folder = match folder()? {
        Some(folder) => folder,
        None => return Ok(()),
    };
    let folder = folder.canonicalize().map_err(|error| error.to_string())?;
    println!("cargo:rustc-link-search=native={}", folder.display());
    link(&folder, "trap")?;
    for name in BESIDE {
        if env::var_os(format!("CARGO_FEATURE_{}", name.to_uppercase())).is_some() {
            link(&folder, name)?;
        }
    }
    println!("cargo:rustc-cfg=archive");
    Ok(())
}

fn main() {
    println!("cargo:rerun-if-env-changed=MONITOR_ARCHIVE_FOLDER");
    println!("cargo:rerun-if-env-changed=MONITOR_FROM_SOURCE");
    println!("cargo:rerun-if-env-changed=PWD");
    println!("cargo:rustc-check-cfg=cfg(archive, lacks_archive, docsrs)");
    for folder in FOLDERS {
        println!("cargo:rerun-if-changed={folder}/libtrap.a");
        println!("cargo:rerun-if-changed={folder}/libelvomike-trap.a");
    }
    if let Err(sentence) = run() {
        println!("cargo:rustc-env=LACKS_ARCHIVE={sentence}");
        println!("cargo:rustc-cfg=lacks_archive");
    }
}
