//! Tells the compiler where the four parser files stand. They are compiled in place, never copied.

use std::env;
use std::path::PathBuf;
use std::process::exit;

const FILES: [&str; 4] = ["common.rs", "smtp.rs", "pop3.rs", "imap.rs"];

fn main() {
    println!("cargo:rerun-if-env-changed=PROTOLENS_SRC");
    let here = PathBuf::from(env::var("CARGO_MANIFEST_DIR").expect("cargo sets it"));
    let given = env::var("PROTOLENS_SRC").unwrap_or_else(|_| "../../shared/docs/src".to_string());
    let folder = here.join(given).join("src/parser");
    for file in FILES {
        let path = folder.join(file);
        if !path.is_file() {
            eprintln!("{} is missing: set PROTOLENS_SRC to the folder that holds src/parser", path.display());
            exit(1);
        }
        println!("cargo:rerun-if-changed={}", path.display());
    }
    println!("cargo:rustc-env=PARSER_FOLDER={}", folder.display());
}
