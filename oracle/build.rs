//! Takes the original Rust text from the folder ORACLE_SRC, puts it into the build's own folder
//! and wires it up as modules of the program. Nothing of it is kept in the repository.
//!
//! Two layouts of ORACLE_SRC are understood: flat names
//! (`src--crates--core--sdrk-core--src--kernels--equalize.rs.txt`) and the tree
//! (`crates/core/sdrk-core/src/kernels/equalize.rs`).

use std::fmt::Write as _;
use std::path::{Path, PathBuf};
use std::{env, fs};

/// A file that goes in whole.
const WHOLE: &[&str] = &[
    "kernels/equalize.rs",
    "kernels/costas.rs",
    "kernels/constellation.rs",
    "kernels/dot.rs",
    "fallback/costas.rs",
    "fallback/dot.rs",
    "reference/costas.rs",
    "reference/equalize.rs",
    "num.rs",
    "types.rs",
    "timing.rs",
];

/// Files of which only the named top-level items go in, with the `use` lines given here.
struct Cut {
    from: &'static str,
    to: &'static str,
    head: &'static str,
    keep: &'static [&'static str],
}

const CUT: &[Cut] = &[
    Cut {
        from: "fallback/mix.rs",
        to: "fallback/mix.rs",
        head: "use crate::error::{Error, Result};\nuse crate::tables::COS_F32;\n",
        keep: &[
            "const QUARTER: u32",
            "fn table_error()",
            "pub(super) fn cos_sin_f32(",
            "pub(super) fn interp_f32(",
            "pub(crate) fn interp_f32_pair(",
        ],
    },
    // The original phase_step, beside its stand-in, for whoever compares the two.
    Cut {
        from: "fallback/modulate.rs",
        to: "fallback/modulate_original.rs",
        head: "",
        keep: &[
            "const MAGIC: f64",
            "const MAGIC_RANGE: f64",
            "pub(crate) fn phase_step(",
            "fn phase_step_fast(",
            "fn phase_step_wide(",
        ],
    },
    Cut {
        from: "reference.rs",
        to: "reference_head.rs",
        head: "",
        keep: &["pub struct Reference;"],
    },
    Cut {
        from: "kernels/mod.rs",
        to: "kernels/head.rs",
        head: "",
        keep: &["pub(crate) fn check_len("],
    },
];

fn main() {
    let here = PathBuf::from(env::var("CARGO_MANIFEST_DIR").unwrap());
    let out = PathBuf::from(env::var("OUT_DIR").unwrap()).join("sdrk");
    println!("cargo:rerun-if-env-changed=ORACLE_SRC");
    println!("cargo:rerun-if-changed=build.rs");
    println!("cargo:rerun-if-changed=table/cos_f32.txt");
    println!("cargo:rerun-if-changed=src/shim");
    let src = match env::var("ORACLE_SRC") {
        Ok(folder) if Path::new(&folder).is_dir() => PathBuf::from(folder),
        Ok(folder) => panic!("ORACLE_SRC names no folder: {folder:?}"),
        Err(_) => panic!("set ORACLE_SRC to the folder that holds the original Rust files"),
    };
    let _ = fs::remove_dir_all(&out);
    for dir in ["kernels", "fallback", "reference"] {
        fs::create_dir_all(out.join(dir)).unwrap();
    }

    for name in WHOLE {
        let mut text = original(&src, name);
        if *name == "kernels/equalize.rs" {
            text.push_str(&fs::read_to_string(here.join("src/shim/equalize_accessor.rs")).unwrap());
        }
        fs::write(out.join(name), text).unwrap();
    }
    for cut in CUT {
        let text = original(&src, cut.from);
        let items = top_level_items(&text);
        let mut kept = String::from(cut.head);
        for want in cut.keep {
            let found: Vec<_> = items
                .iter()
                .filter(|i| i.lines().any(|l| l.starts_with(want)))
                .collect();
            assert!(
                found.len() == 1,
                "{}: {} items match {want:?}",
                cut.from,
                found.len()
            );
            kept.push('\n');
            kept.push_str(found[0]);
        }
        fs::write(out.join(cut.to), kept).unwrap();
    }

    // The table of document 01 in the place of COS_F32.
    let mut tables = String::from("pub static COS_F32: [f32; 4097] = [\n");
    let bits = fs::read_to_string(here.join("table/cos_f32.txt")).unwrap();
    for b in bits.lines() {
        writeln!(tables, "    f32::from_bits(0x{b}),").unwrap();
    }
    tables.push_str("];\n");
    fs::write(out.join("tables.rs"), tables).unwrap();

    let at = |p: &str| format!("#[path = {:?}]", out.join(p).to_str().unwrap());
    let shim = |p: &str| {
        format!(
            "#[path = {:?}]",
            here.join("src/shim").join(p).to_str().unwrap()
        )
    };
    let text = |p: &str| fs::read_to_string(out.join(p)).unwrap();
    let mods = format!(
        "\
{error} pub mod error;
{tables} pub mod tables;
{num} pub mod num;
{types} pub mod types;
{timing} pub mod timing;
pub mod kernels {{
    {k_constellation} pub mod constellation;
    {k_costas} pub mod costas;
    {k_dot} pub mod dot;
    {k_equalize} pub mod equalize;
{check_len}
}}
/// Stand-in for the type of the same name.
#[derive(Debug, Clone, Copy, Default)]
pub struct Fallback;
pub mod fallback {{
    {f_costas} pub mod costas;
    {f_dot} pub mod dot;
    {f_mix} pub mod mix;
    {f_modulate_original} pub mod modulate_original;
    /// `correction` in the place of `phase_step` (document 01, Leaves): its one caller,
    /// `phase_step_f32`, hands it the f64 of an f32 and 2^32.
    pub mod modulate {{
        #[inline]
        pub(crate) fn phase_step(x: f64, k: f64) -> u32 {{
            debug_assert!(k == 4_294_967_296.0);
            debug_assert!(x.is_nan() || f64::from(x as f32) == x);
            crate::reference::probe::correction(x as f32)
        }}
    }}
}}
pub mod reference {{
{reference}
    {r_costas} mod costas;
    {r_dot} pub mod dot;
    {r_equalize} mod equalize;
    /// What the files keep to themselves, for the leaves.
    pub mod probe {{
        pub fn correction(v: f32) -> u32 {{
            super::costas::correction(v)
        }}
        pub fn cos_f32(phase: u32) -> f32 {{
            super::costas::cos_f32(phase)
        }}
    }}
}}
pub use reference::Reference;
",
        error = shim("error.rs"),
        tables = at("tables.rs"),
        num = at("num.rs"),
        types = at("types.rs"),
        timing = at("timing.rs"),
        k_constellation = at("kernels/constellation.rs"),
        k_costas = at("kernels/costas.rs"),
        k_dot = at("kernels/dot.rs"),
        k_equalize = at("kernels/equalize.rs"),
        check_len = text("kernels/head.rs"),
        f_costas = at("fallback/costas.rs"),
        f_dot = at("fallback/dot.rs"),
        f_mix = at("fallback/mix.rs"),
        f_modulate_original = at("fallback/modulate_original.rs"),
        reference = text("reference_head.rs"),
        r_costas = at("reference/costas.rs"),
        r_dot = shim("reference_dot.rs"),
        r_equalize = at("reference/equalize.rs"),
    );
    fs::write(out.join("mods.rs"), mods).unwrap();
}

fn original(src: &Path, name: &str) -> String {
    let tree = format!("crates/core/sdrk-core/src/{name}");
    let flat = format!("src--{}.txt", tree.replace('/', "--"));
    for p in [src.join(&flat), src.join(&tree)] {
        if let Ok(text) = fs::read_to_string(&p) {
            println!("cargo:rerun-if-changed={}", p.display());
            return text;
        }
    }
    panic!("{name} is not in ORACLE_SRC (neither {flat} nor {tree})");
}

/// The top-level items of a file that rustfmt has laid out: comment and attribute lines at the
/// margin, then the item up to the first line at the margin that ends it.
fn top_level_items(text: &str) -> Vec<String> {
    let mut items = Vec::new();
    let mut item = String::new();
    let mut in_body = false;
    let mut in_attribute = false;
    for line in text.lines() {
        if line.starts_with("//!") {
            continue;
        }
        if item.is_empty() && line.is_empty() {
            continue;
        }
        item.push_str(line);
        item.push('\n');
        if in_attribute {
            in_attribute = line != ")]";
            continue;
        }
        if !in_body {
            if line.starts_with("//") {
                continue;
            }
            if line.starts_with("#[") || line.starts_with("#![") {
                in_attribute = !line.ends_with(']');
                continue;
            }
            in_body = true;
        }
        let margin = !line.is_empty() && !line.starts_with(' ');
        if margin && (line.ends_with(';') || line.ends_with('}')) {
            items.push(std::mem::take(&mut item));
            in_body = false;
        }
    }
    items
}
