//! Makes the text of Miralis reachable for src/lib.rs, without a copy of it in the repository and without a changed line: whole
//! files are modules by their path, and the few items that are in a larger file are cut out of it as they are.
//!
//! The folder is MIRALIS_SRC, the one that has `src/decoder.rs` below it, as a whole path. Where it is not there, the library is built
//! empty (no `have_miralis`), so that the rest of the workspace still builds.

use std::path::{Path, PathBuf};
use std::{env, fs};

/// Where the text is looked for, from the top of the repository, when MIRALIS_SRC does not say.
const DEFAULT: &str = "../shared/docs/src";

/// The files that are modules as they are.
const FILES: [&str; 3] = ["src/decoder.rs", "src/arch/registers.rs", "src/utils.rs"];

/// The file of the rest of `arch`, which needs a RISC-V machine, and the items of it that the decoder needs.
const ARCH: &str = "src/arch/mod.rs";
const ITEMS: [&str; 4] = ["pub struct ExtensionsCapability {", "pub enum Width {", "impl Width {", "impl From<usize> for Width {"];

fn main() {
    println!("cargo::rustc-check-cfg=cfg(have_miralis)");
    println!("cargo::rerun-if-env-changed=MIRALIS_SRC");
    // The packages that share this script are two folders below the top.
    let top = PathBuf::from(var("CARGO_MANIFEST_DIR")).join("../..");
    let folder = env::var_os("MIRALIS_SRC").filter(|f| !f.is_empty()).map_or_else(|| top.join(DEFAULT), PathBuf::from);
    // this script runs in its package's folder, which is not where a relative path was meant from
    assert!(folder.is_absolute(), "MIRALIS_SRC is {}: cargo needs the whole path", folder.display());
    for file in FILES.iter().chain([&ARCH]) {
        println!("cargo::rerun-if-changed={}", folder.join(file).display());
    }
    let out = PathBuf::from(var("OUT_DIR")).join("miralis.rs");
    let text = match folder.canonicalize() {
        Ok(folder) if FILES.iter().chain([&ARCH]).all(|f| folder.join(f).is_file()) => {
            println!("cargo::rustc-cfg=have_miralis");
            // for the build scripts of those that depend on this package
            println!("cargo::metadata=have=1");
            modules(&folder, &decoder(&top, &folder))
        }
        _ => String::new(),
    };
    fs::write(&out, text).unwrap_or_else(|e| panic!("{}: {e}", out.display()));
}

/// The decoder: Miralis's own, or, for the package that has this feature, what replaces it over the proved library.
fn decoder(top: &Path, folder: &Path) -> PathBuf {
    if env::var_os("CARGO_FEATURE_STAND_IN").is_none() {
        return folder.join(FILES[0]);
    }
    let file = top.join("rust/miralis/decoder.rs");
    println!("cargo::rerun-if-changed={}", file.display());
    file.canonicalize().unwrap_or_else(|e| panic!("{}: {e}", file.display()))
}

/// The modules of the text, which src/lib.rs includes.
fn modules(folder: &Path, decoder: &Path) -> String {
    let [_, registers, utils] = FILES.map(|f| format!("{:?}", folder.join(f)));
    let arch = folder.join(ARCH);
    let arch = fs::read_to_string(&arch).unwrap_or_else(|e| panic!("{}: {e}", arch.display()));
    let items: String = ITEMS.iter().map(|head| cut(&arch, head)).collect();
    format!(
        "#[path = {decoder:?}]\npub mod decoder;\n#[path = {utils}]\npub mod utils;\n\
         pub mod arch {{\n#[path = {registers}]\nmod registers;\npub use registers::{{Csr, Register, csr}};\n{items}}}\n"
    )
}

/// The item whose first line is `head`, with the comments and attributes on it, down to its closing brace.
fn cut(text: &str, head: &str) -> String {
    let lines: Vec<&str> = text.lines().collect();
    let at = lines.iter().position(|l| *l == head).unwrap_or_else(|| panic!("{ARCH} has no line {head:?}"));
    let above = lines[..at].iter().rev().take_while(|l| l.starts_with("///") || l.starts_with("#[")).count();
    let below = lines[at..].iter().position(|l| *l == "}").unwrap_or_else(|| panic!("{head:?} is not closed"));
    let mut item = lines[at - above..=at + below].join("\n");
    item.push('\n');
    item
}

fn var(name: &str) -> String {
    env::var(name).unwrap_or_else(|e| panic!("{name}: {e}"))
}
