//! Finds libunvriscol.a with all its functions, has `rt` build it where it is missing or older than its sources, and otherwise says what is wrong.
use std::collections::HashSet;
use std::path::{Path, PathBuf};
use std::process::{Command, exit};
use std::time::SystemTime;
use std::{env, fs};

const PLACE: &str = "UNVRISCOL_LIB_DIR";
const ARCHIVE: &str = "libunvriscol.a";
const BUILD: &str = "cd crates/unvriscol && rt lib";

fn main() {
    println!("cargo:rerun-if-env-changed={PLACE}");
    let here = Path::new(env!("CARGO_MANIFEST_DIR"));
    let root = here.ancestors().nth(2).unwrap_or(here);
    let sources = sources(root);
    let place = match env::var_os(PLACE).filter(|place| !place.is_empty()) {
        Some(place) => named(here, Path::new(&place), &sources),
        None => built(root, &sources),
    };
    let target = env::var("CARGO_CFG_TARGET_ARCH").unwrap_or_default();
    if target != "x86_64" {
        println!(
            "cargo:warning={ARCHIVE} is for x86-64, and this is built for {target}: it can be checked, not linked"
        );
    }
    for path in sources.iter().chain([&place.join(ARCHIVE)]) {
        println!("cargo:rerun-if-changed={}", path.display());
    }
    println!("cargo:rustc-link-search=native={}", place.display());
    println!("cargo:rustc-link-lib=static=unvriscol");
}

/// What the archive is made from: crates.txt and the src/ of each crate that it leads to. Nothing where this crate stands without them.
fn sources(root: &Path) -> Vec<PathBuf> {
    let list = root.join("crates.txt");
    let text = fs::read_to_string(&list).unwrap_or_default();
    let mut needed = vec!["unvriscol"];
    let mut at = 0;
    while let Some(&name) = needed.get(at) {
        at += 1;
        let mut lines = text.lines().filter_map(|line| line.split_once(':'));
        // The door's line has the word staticlib behind its name.
        if let Some((_, uses)) =
            lines.find(|(said, _)| said.split_whitespace().next() == Some(name))
        {
            needed.extend(uses.split_whitespace());
            let mut seen = HashSet::new();
            needed.retain(|name| seen.insert(*name));
        }
    }
    // A library of the kit has no folder here.
    let folders: Vec<_> = needed
        .into_iter()
        .map(|name| root.join("crates").join(name).join("src"))
        .filter(|folder| folder.is_dir())
        .collect();
    if folders.is_empty() {
        return folders;
    }
    [list].into_iter().chain(folders).collect()
}

/// The file at or below a path that was written last, and when.
fn newest(path: &Path) -> Option<(SystemTime, PathBuf)> {
    if path.is_dir() {
        let entries = fs::read_dir(path).ok()?.flatten();
        entries.filter_map(|entry| newest(&entry.path())).max()
    } else {
        Some((written(path)?, path.to_owned()))
    }
}

fn written(file: &Path) -> Option<SystemTime> {
    fs::metadata(file).ok()?.modified().ok()
}

/// That the archive of a folder is older than a source.
fn outdated(place: &Path, sources: &[PathBuf]) -> Option<String> {
    let archive = place.join(ARCHIVE);
    let (when, source) = sources.iter().filter_map(|path| newest(path)).max()?;
    (when > written(&archive)?)
        .then(|| format!("{} is older than {}", archive.display(), source.display()))
}

/// What the archive of a folder lacks: all of it, or functions that src/door.rs declares.
fn lacking(place: &Path) -> Option<String> {
    let archive = place.join(ARCHIVE);
    let Ok(bytes) = fs::read(&archive) else {
        return Some(format!("there is no {}", archive.display()));
    };
    let has = |name: &&str| {
        let symbol = [name.as_bytes(), b"\0"].concat();
        bytes.windows(symbol.len()).any(|part| part == symbol)
    };
    let declared = include_str!("src/door.rs").split("fn ").skip(1);
    let missing: Vec<_> = declared
        .filter_map(|rest| rest.split('(').next())
        .filter(|name| name.starts_with("uv_") && !has(name))
        .collect();
    (!missing.is_empty()).then(|| format!("{} has no {}", archive.display(), missing.join(", ")))
}

/// The folder that the variable names.
fn named(here: &Path, name: &Path, sources: &[PathBuf]) -> PathBuf {
    let place = here.join(name);
    let place = place.canonicalize().unwrap_or(place);
    if let Some(lacking) = lacking(&place) {
        let counted = if name.is_relative() {
            format!(
                ", and is {} here, counted from {}",
                name.display(),
                here.display()
            )
        } else {
            String::new()
        };
        give_up(&format!(
            "{lacking}; {PLACE} names the folder of the archive that `{BUILD}` writes{counted}"
        ));
    }
    if let Some(outdated) = outdated(&place, sources) {
        println!(
            "cargo:warning={outdated}; it is used, since {PLACE} names it (`{BUILD}` writes one from the sources as they are)"
        );
    }
    place
}

/// The folder that `rt` writes to, after running it where the archive there does not do.
fn built(root: &Path, sources: &[PathBuf]) -> PathBuf {
    let place = root.join("crates/unvriscol/out");
    let lacks = lacking(&place);
    let Some(why) = lacks.clone().or_else(|| outdated(&place, sources)) else {
        return place;
    };
    let run = Command::new("rt")
        .arg("lib")
        .current_dir(root.join("crates/unvriscol"))
        .output();
    match run {
        Err(error) if lacks.is_some() => give_up(&format!(
            "{why}, and the Rattle kit's `rt`, which builds it, does not run ({error}); \
             run `{BUILD}` where the kit is and name the archive's folder in {PLACE}"
        )),
        Err(error) => {
            println!(
                "cargo:warning={why}; it is used, since the Rattle kit's `rt`, which builds it anew, does not run ({error})"
            );
        }
        Ok(run) if !run.status.success() => give_up(&format!(
            "{why}, and `{BUILD}` failed:\n{}{}",
            String::from_utf8_lossy(&run.stdout),
            String::from_utf8_lossy(&run.stderr)
        )),
        Ok(_) => {
            if let Some(lacking) = lacking(&place) {
                give_up(&format!("after `{BUILD}` {lacking}"));
            }
        }
    }
    place
}

fn give_up(why: &str) -> ! {
    eprintln!("unvriscol: {why}");
    exit(1)
}
