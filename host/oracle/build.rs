//! Finds the original's source: a checkout of capsulerun/vpod, which the variable VPOD names. Where the feature `required` is off, as for the example
//! that can do without, the variable may be left out.
use std::path::Path;
use std::process::exit;

const PLACE: &str = "VPOD";
const SOURCE: &str = "crates/riscv-core/src";

fn main() {
    println!("cargo:rerun-if-env-changed={PLACE}");
    println!("cargo:rustc-check-cfg=cfg(original)");
    let Some(checkout) = std::env::var_os(PLACE).filter(|place| !place.is_empty()) else {
        if std::env::var_os("CARGO_FEATURE_REQUIRED").is_some() {
            give_up("the original is not at hand");
        }
        return;
    };
    // A relative path is counted from here, as cargo does, so the message shows the whole.
    let source = Path::new(env!("CARGO_MANIFEST_DIR"))
        .join(checkout)
        .join(SOURCE);
    let Ok(source) = source.canonicalize() else {
        give_up(&format!("there is no folder {}", source.display()));
    };
    println!("cargo:rustc-cfg=original");
    println!("cargo:rerun-if-changed={}", source.display());
    println!("cargo:rustc-env=VPOD_SOURCE={}", source.display());
}

fn give_up(why: &str) -> ! {
    eprintln!(
        "oracle: {why}; set {PLACE} to the folder of a checkout of capsulerun/vpod at ec4bd213ac, which has {SOURCE}"
    );
    exit(1)
}
