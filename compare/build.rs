//! Names tono's files below `TONO_SRC` as modules, so that they are compiled from where they lie.
//! What it writes holds their paths alone: nothing of tono enters the repository. If `TONO_FAULT` names
//! one of the faults, the files that it concerns are copied into OUT_DIR with the fault planted.

use std::path::{Path, PathBuf};
use std::{env, fs};

#[path = "src/faults.rs"]
mod faults;

use faults::{FAULTS, Fault, planted};

/// Where tono's sources lie, seen from the repository's root, if `TONO_SRC` does not say.
const DEFAULT_SRC: &str = "../shared/docs/src";

const CORE: &str = "crates/tono-core/src";

/// The files of tono's core that stand at the crate's root.
const ROOT: [&str; 1] = ["player"];

/// The files of tono's core that stand in its `runtime`.
const RUNTIME: [&str; 7] = [
    "oneshot",
    "performance",
    "ramp",
    "ring",
    "source",
    "timeline",
    "transport",
];

fn main() {
    println!("cargo::rerun-if-env-changed=TONO_SRC");
    println!("cargo::rerun-if-env-changed=TONO_FAULT");
    let repository = Path::new(env!("CARGO_MANIFEST_DIR")).join("..");
    let named = env::var("TONO_SRC").unwrap_or_else(|_| DEFAULT_SRC.to_string());
    let core = repository.join(named).join(CORE);
    let fault = env::var("TONO_FAULT").ok().map(|name| {
        let found = FAULTS.iter().find(|fault| fault.name == name);
        found.expect("TONO_FAULT names a fault")
    });
    declare(&core, &ROOT, fault, "tono_root.rs");
    declare(&core.join("runtime"), &RUNTIME, fault, "tono_runtime.rs");
}

/// Writes a file of module declarations, one for each of tono's files in this folder.
fn declare(folder: &Path, modules: &[&str], fault: Option<&Fault>, written: &str) {
    let out = PathBuf::from(env::var("OUT_DIR").expect("cargo names OUT_DIR"));
    let mut declarations = String::new();
    for module in modules {
        let file = folder.join(module).with_extension("rs");
        println!("cargo::rerun-if-changed={}", file.display());
        let Ok(mut file) = file.canonicalize() else {
            println!(
                "cargo::error=tono's file {} is not there: TONO_SRC must name the folder that holds tono's `crates`",
                file.display()
            );
            continue;
        };
        let mut allowed = "dead_code";
        if let Some(fault) = fault {
            let source = fs::read_to_string(&file).expect("tono's file can be read");
            if let Some(faulty) = planted(fault, module, &source) {
                file = out.join(module).with_extension("rs");
                fs::write(&file, faulty).expect("OUT_DIR can be written");
                allowed = "warnings";
            }
        }
        declarations += &format!("#[allow({allowed})]\n#[path = {file:?}]\npub mod {module};\n\n");
    }
    fs::write(out.join(written), declarations).expect("OUT_DIR can be written");
}
