//! Reads egui 0.37.0's scroll_area.rs and scroll_physics.rs from the directory that EGUI_CONTAINERS names and makes the substitutions below.
//!
//! It fails where a file is absent or not egui 0.37.0's, or where a substitution has not as many places as it should. EGUI_EDIT names a file
//! with an edit of one place, for tools/mutants.

mod edit;
mod marks;
mod tokens;

use std::path::{Path, PathBuf};
use std::{env, fs};

/// What is replaced, by what, and in how many places.
type Substitution = (&'static str, &'static str, usize);

/// One of egui's files.
struct Source {
    name: &'static str,
    /// The file's FNV-1a of 64 bits.
    checksum: u64,
    substitutions: &'static [Substitution],
    /// The starts of the functions whose sides are counted; none for the whole file.
    marked: &'static [&'static str],
    /// Text that is added at the end.
    added: &'static str,
}

const SCROLL_AREA: Source = Source {
    name: "scroll_area.rs",
    checksum: 0x8299_0f7d_5f22_cba2,
    substitutions: &[
        ("NumExt as _, Pos2", "NumExt as _, Stated as _, Pos2", 1),
        (".max(", ".stated_max(", 3),
        (".min(", ".stated_min(", 3),
    ],
    marked: &["    fn begin(", "    fn end(", "    pub fn enabled("],
    // A module inside the file sees the fields of State, which are private.
    added: "\n#[path = BRIDGE]\npub mod bridge;\n",
};

const SCROLL_PHYSICS: Source = Source {
    name: "scroll_physics.rs",
    checksum: 0x1246_22ac_eb40_d8ee,
    substitutions: &[
        ("use emath::Rangef;", "use emath::{Rangef, Stated as _};", 1),
        (".max(", ".stated_max(", 2),
        (".min(", ".stated_min(", 2),
        (".signum()", ".stated_signum()", 2),
        (".exp()", ".stated_exp()", 2),
    ],
    marked: &[],
    added: "",
};

fn main() {
    println!("cargo::rerun-if-changed=build");
    println!("cargo::rerun-if-env-changed=EGUI_CONTAINERS");
    println!("cargo::rerun-if-env-changed=EGUI_EDIT");
    if let Err(why) = written() {
        println!("cargo::error={why}");
    }
}

/// Writes both texts, and what the crate includes besides.
fn written() -> Result<(), String> {
    let folder = env::var_os("EGUI_CONTAINERS")
        .ok_or("EGUI_CONTAINERS is not set: it names the directory of egui 0.37.0's scroll_area.rs and scroll_physics.rs")?;
    let out = PathBuf::from(env::var_os("OUT_DIR").expect("cargo names a folder"));
    let mut sites = Vec::new();
    let mut modules = String::new();
    for source in [SCROLL_AREA, SCROLL_PHYSICS] {
        let text = source.text(Path::new(&folder), &mut sites)?;
        let path = out.join(source.name);
        fs::write(&path, text).expect("the text is written");
        let module = source.name.trim_end_matches(".rs");
        modules += &format!("#[path = {path:?}]\npub mod {module};\n");
    }
    let is_edited = env::var_os("EGUI_EDIT").is_some();
    modules += &format!(
        "/// Whether the text is not egui's own.\npub const IS_EDITED: bool = {is_edited};\n"
    );
    fs::write(out.join("modules.rs"), modules).expect("the modules are written");
    fs::write(out.join("sites.rs"), format!("&{sites:#?}")).expect("the sites are written");
    Ok(())
}

impl Source {
    /// The file's text after every substitution; the sides that are counted are put behind those given.
    fn text(&self, folder: &Path, sites: &mut Vec<String>) -> Result<String, String> {
        let own = self.own(folder)?;
        self.check_places(&own)?;
        let mut text = edit::edited(self.name, own)?;
        if env::var_os("CARGO_FEATURE_MARKED").is_some() {
            text = marks::marked(&text, self.name, self.marked, sites);
        }
        for (from, to, _) in self.substitutions {
            text = text.replace(from, to);
        }
        let bridge = Path::new(&env::var_os("CARGO_MANIFEST_DIR").expect("cargo names a folder"))
            .join("src/bridge.rs");
        Ok(text + &self.added.replace("BRIDGE", &format!("{bridge:?}")))
    }

    /// The file as egui 0.37.0 has it.
    fn own(&self, folder: &Path) -> Result<String, String> {
        let path = folder.join(self.name);
        println!("cargo::rerun-if-changed={}", path.display());
        let text = fs::read_to_string(&path).map_err(|why| format!("{}: {why}", path.display()))?;
        let found = checksum(text.as_bytes());
        if found != self.checksum {
            return Err(format!(
                "{} is not egui 0.37.0's: its checksum is {found:016x}, not {:016x}",
                path.display(),
                self.checksum
            ));
        }
        Ok(text)
    }

    fn check_places(&self, text: &str) -> Result<(), String> {
        for (from, _, places) in self.substitutions {
            let found = text.matches(from).count();
            if found != *places {
                return Err(format!(
                    "{}: {from:?} has {found} places, not {places}",
                    self.name
                ));
            }
        }
        Ok(())
    }
}

/// The FNV-1a hash of 64 bits.
fn checksum(bytes: &[u8]) -> u64 {
    bytes.iter().fold(0xcbf2_9ce4_8422_2325, |hash, byte| {
        (hash ^ u64::from(*byte)).wrapping_mul(0x0000_0100_0000_01b3)
    })
}
