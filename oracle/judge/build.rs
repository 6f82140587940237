//! Builds the published text: as it stands, for a few sets of real constants, and with the set read at run time, on given levels and on raw maps.

use places::{Edit, Place, edited, published_name, sha256};
use std::env;
use std::fmt::Write as _;
use std::fs;
use std::path::{Path, PathBuf};
use substitutions::Substitution;

#[path = "src/fixed_sets.rs"]
mod fixed_sets;
mod substitutions;

const PUBLISHED: [&str; 4] = ["scale_fit.rs", "reference.rs", "stream.rs", "blur.rs"];
const DOCUMENT: [&str; 16] = [
    "admission.rs",
    "causes.rs",
    "columns.rs",
    "counting.rs",
    "desks.rs",
    "entries.rs",
    "feed.rs",
    "here.rs",
    "levels.rs",
    "list.rs",
    "moves.rs",
    "partner.rs",
    "record.rs",
    "scene.rs",
    "steps.rs",
    "store.rs",
];

/// A deliberate break of one file: edits at places of a published one, or in our own a text that stands once and what it becomes.
#[derive(Default)]
struct Break {
    name: String,
    file: String,
    edits: Vec<Edit>,
    old: String,
    new: String,
}

impl Break {
    /// The file's text with the break in it.
    fn applied(&self, sound: &str) -> Result<String, String> {
        if !self.edits.is_empty() {
            return edited(sound, &self.edits.iter().collect::<Vec<_>>());
        }
        match sound.matches(&self.old).count() {
            1 => Ok(sound.replacen(&self.old, &self.new, 1)),
            times => Err(format!("its old text stands {times} times")),
        }
    }
}

fn main() {
    let crate_folder = PathBuf::from(env::var("CARGO_MANIFEST_DIR").unwrap());
    let out = PathBuf::from(env::var("OUT_DIR").unwrap());
    println!("cargo:rustc-cfg=feature=\"std\"");
    for name in ["URAMSHEG_PUBLISHED", "JUDGE_BREAK", "JUDGE_BREAKS"] {
        println!("cargo:rerun-if-env-changed={name}");
    }
    for name in ["build.rs", "substitutions.rs", "src"] {
        println!("cargo:rerun-if-changed={name}");
    }
    let published = published_folder(&crate_folder);
    let source = |file: &str| {
        if PUBLISHED.contains(&file) {
            published.join(published_name(file))
        } else {
            crate_folder.join("src/document").join(file)
        }
    };
    let broken = chosen_break(&crate_folder, &source);
    let mut text = String::new();
    writeln!(
        text,
        "pub const BROKEN: Option<&str> = {:?};",
        broken.as_ref().map(|b| &b.name)
    )
    .unwrap();
    write_digests(&mut text, &source);
    write_document(&mut text, &out, &source, broken.as_ref());
    write_fixed(&mut text, &crate_folder, &out, &source, broken.as_ref());
    write_run(&mut text, &crate_folder, &out, &source, broken.as_ref());
    fs::write(out.join("generated.rs"), text).unwrap();
}

fn published_folder(crate_folder: &Path) -> PathBuf {
    let folder = match env::var_os("URAMSHEG_PUBLISHED") {
        Some(folder) => PathBuf::from(folder),
        None => crate_folder.join("../../../shared/docs"),
    };
    match folder.canonicalize() {
        Ok(folder) => folder,
        Err(_) => panic!(
            "the published text is not at {}: set URAMSHEG_PUBLISHED to its folder",
            folder.display()
        ),
    }
}

fn read(path: &Path) -> String {
    println!("cargo:rerun-if-changed={}", path.display());
    fs::read_to_string(path).unwrap_or_else(|error| panic!("{}: {error}", path.display()))
}

/// Reads every break, tries each on its file, and gives the one that JUDGE_BREAK names.
fn chosen_break(crate_folder: &Path, source: &dyn Fn(&str) -> PathBuf) -> Option<Break> {
    let path =
        env::var_os("JUDGE_BREAKS").map_or_else(|| crate_folder.join("breaks.txt"), PathBuf::from);
    let number: usize = match env::var("JUDGE_BREAK") {
        Ok(number) if !number.is_empty() => number.parse().expect("JUDGE_BREAK is no number"),
        _ => 0,
    };
    let mut breaks = parse_breaks(&read(&path));
    for (index, entry) in breaks.iter().enumerate() {
        let sound = cut(&entry.file, read(&source(&entry.file)));
        if let Err(fault) = entry.applied(&sound) {
            panic!(
                "break {} ({}): {}: {fault}",
                index + 1,
                entry.name,
                entry.file
            );
        }
    }
    assert!(
        number <= breaks.len(),
        "JUDGE_BREAK is {number}, there are {} breaks",
        breaks.len()
    );
    (number > 0).then(|| breaks.swap_remove(number - 1))
}

/// The entries of breaks.txt, whose head says how they are written.
fn parse_breaks(text: &str) -> Vec<Break> {
    let mut breaks: Vec<Break> = Vec::new();
    let entries = text.lines().skip_while(|line| !line.starts_with("# "));
    for line in entries.filter(|line| !line.trim().is_empty()) {
        if let Some(name) = line.strip_prefix("# ") {
            breaks.push(Break {
                name: name.into(),
                ..Break::default()
            });
        } else if let Some(entry) = breaks.last_mut() {
            read_line(entry, line).unwrap_or_else(|fault| panic!("break {}: {fault}", entry.name));
        }
    }
    breaks
}

/// One line of an entry, its key and value.
fn read_line(entry: &mut Break, line: &str) -> Result<(), String> {
    let (key, value) = line.split_once(':').ok_or(line)?;
    let value = value.strip_prefix(' ').unwrap_or(value);
    match key {
        "at" => {
            let (file, place) = value.split_once(' ').ok_or(line)?;
            entry.file = file.into();
            entry.edits.push(Edit {
                at: Place::read(place)?,
                new: String::new(),
            });
        }
        "file" => entry.file = value.trim().into(),
        "old" => entry.old = value.replace("\\n", "\n"),
        "new" => match entry.edits.last_mut() {
            Some(edit) => edit.new = value.into(),
            None => entry.new = value.replace("\\n", "\n"),
        },
        _ => return Err(line.into()),
    }
    Ok(())
}

fn write_digests(text: &mut String, source: &dyn Fn(&str) -> PathBuf) {
    let digests = PUBLISHED.map(|file| (file, sha256::hex(read(&source(file)).as_bytes())));
    writeln!(
        text,
        "pub const PUBLISHED: [(&str, &str); {}] = {digests:?};",
        digests.len()
    )
    .unwrap();
}

/// The crate's own files that can be broken: in place, or the one broken copy.
fn write_document(
    text: &mut String,
    out: &Path,
    source: &dyn Fn(&str) -> PathBuf,
    broken: Option<&Break>,
) {
    for file in DOCUMENT {
        let mut path = source(file);
        if let Some(entry) = broken.filter(|entry| entry.file == file) {
            let sound = read(&path);
            path = out.join(file);
            fs::write(&path, entry.applied(&sound).unwrap()).unwrap();
        }
        let name = file.trim_end_matches(".rs");
        let seen = match file {
            "desks.rs" | "feed.rs" | "levels.rs" | "partner.rs" | "scene.rs" | "steps.rs"
            | "store.rs" => "pub",
            _ => "pub(crate)",
        };
        writeln!(text, "#[path = {path:?}]\n{seen} mod {name};").unwrap();
    }
}

const ALLOWED: &str =
    "#[allow(dead_code, unused_imports, unused_variables, unreachable_code, clippy::all)]";

fn write_fixed(
    text: &mut String,
    crate_folder: &Path,
    out: &Path,
    source: &dyn Fn(&str) -> PathBuf,
    broken: Option<&Break>,
) {
    writeln!(text, "mod fixed_builds {{").unwrap();
    if broken.is_some() {
        for name in fixed_sets::NAMES {
            writeln!(text, "pub(crate) use crate::whole as {name};").unwrap();
        }
        writeln!(text, "}}").unwrap();
        return;
    }
    for (index, name) in fixed_sets::NAMES.iter().enumerate() {
        let set = fixed_sets::by_index(index);
        let (tables, geometry) = (
            out.join(format!("{name}_tables.rs")),
            out.join(format!("{name}_geometry.rs")),
        );
        fs::write(&tables, tables_of(&set)).unwrap();
        fs::write(&geometry, geometry_tables_of(&set)).unwrap();
        let mut modules = vec![("tables", tables), ("geometry_tables", geometry)];
        modules.extend(PUBLISHED.map(|file| (module_of(file), source(file))));
        let own = ["offered", "blurred"];
        write_build(text, name, GIVEN, crate_folder, &modules, &own);
    }
    writeln!(text, "}}").unwrap();
}

fn write_run(
    text: &mut String,
    crate_folder: &Path,
    out: &Path,
    source: &dyn Fn(&str) -> PathBuf,
    broken: Option<&Break>,
) {
    let substitutions = [
        substitutions::SCALE_FIT,
        substitutions::REFERENCE,
        substitutions::STREAM,
        substitutions::BLUR,
    ];
    let mut modules = Vec::new();
    for (file, list) in PUBLISHED.iter().zip(substitutions) {
        let published = cut(file, read(&source(file)));
        let edits: Vec<Edit> = list.iter().filter_map(edit_of).collect();
        let mut edits: Vec<&Edit> = edits.iter().collect();
        let sound = edited(&published, &edits);
        let sound = sound.unwrap_or_else(|fault| panic!("substitutions.rs: {file}: {fault}"));
        check_times(file, sound, list);
        let broken_here = broken.filter(|entry| entry.file == *file);
        edits.extend(broken_here.iter().flat_map(|entry| &entry.edits));
        let mut rewritten = edited(&published, &edits).unwrap();
        for one in list {
            rename(&mut rewritten, one);
        }
        let path = out.join(format!("run_{file}"));
        fs::write(&path, rewritten).unwrap();
        modules.push((module_of(file), path));
    }
    let own = ["offered", "blurred"];
    write_build(text, "whole", OWN, crate_folder, &modules, &own);
    modules.pop();
    let own = ["offered", "inner"];
    write_build(text, "run", GIVEN, crate_folder, &modules, &own);
}

/// The module that a published file is in a build: the blur's own name is that of what the passes blur by.
fn module_of(file: &str) -> &str {
    match file {
        "blur.rs" => "column_blur",
        _ => file.trim_end_matches(".rs"),
    }
}

/// What the passes of a build blur by: given levels handed over, or the published blur.
const GIVEN: &str = "crate::shims::blur";
const OWN: &str = "self::column_blur as blur";

/// One build: modules of published text, and the crate's own that look inside them.
fn write_build(
    text: &mut String,
    name: &str,
    blur: &str,
    crate_folder: &Path,
    modules: &[(&str, PathBuf)],
    own: &[&str],
) {
    writeln!(
        text,
        "pub(crate) mod {name} {{\nuse crate::shims::{{GrayImage, octave_dedup}};\nuse {blur};"
    )
    .unwrap();
    for (module, path) in modules {
        writeln!(
            text,
            "{ALLOWED}\n#[path = {path:?}]\npub(crate) mod {module};"
        )
        .unwrap();
    }
    for module in own {
        let path = crate_folder.join(format!("src/{module}.rs"));
        writeln!(
            text,
            "#[allow(dead_code)]\n#[path = {path:?}]\npub mod {module};"
        )
        .unwrap();
    }
    writeln!(text, "}}").unwrap();
}

/// stream.rs up to its second pass; another file whole.
fn cut(file: &str, mut text: String) -> String {
    if file == "stream.rs" {
        let place = Place::read(substitutions::STREAM_CUT).and_then(|place| place.find(&text));
        text.truncate(
            place
                .unwrap_or_else(|fault| panic!("STREAM_CUT: {fault}"))
                .start,
        );
    }
    text
}

/// The edit of a substitution that names a place.
fn edit_of(one: &Substitution) -> Option<Edit> {
    let Substitution::At(at, new) = one else {
        return None;
    };
    let at = Place::read(at).unwrap_or_else(|fault| panic!("substitutions.rs: {fault}"));
    let new = new.to_string();
    Some(Edit { at, new })
}

/// Stops the build unless each name stands as often as its substitution says.
fn check_times(file: &str, mut sound: String, list: &[Substitution]) {
    for one in list {
        let found = rename(&mut sound, one);
        if let Substitution::Word(old, _, times) | Substitution::Call(old, _, times) = one {
            assert!(
                found == *times,
                "{file}: {old} stands {found} times, not {times}"
            );
        }
    }
}

/// Replaces every match of a name and says how many there were.
fn rename(text: &mut String, one: &Substitution) -> usize {
    let (old, new, whole) = match one {
        Substitution::Word(old, new, _) => (*old, *new, true),
        Substitution::Call(old, new, _) => (*old, *new, false),
        Substitution::At(..) => return 0,
    };
    let is_name = |c: char| c.is_alphanumeric() || c == '_';
    let mut out = String::new();
    let (mut rest, mut times) = (text.as_str(), 0);
    while let Some(at) = rest.find(old) {
        let (before, after) = (&rest[..at], &rest[at + old.len()..]);
        let inside_name = before.ends_with(is_name) || after.starts_with(is_name);
        let renamed = !(whole && inside_name);
        times += usize::from(renamed);
        out.push_str(before);
        out.push_str(if renamed { new } else { old });
        rest = after;
    }
    out.push_str(rest);
    *text = out;
    times
}

fn number(value: f32) -> String {
    format!("f32::from_bits({:#010x})", value.to_bits())
}

fn numbers(values: &[f32]) -> String {
    format!(
        "[{}]",
        values
            .iter()
            .map(|&value| number(value))
            .collect::<Vec<_>>()
            .join(", ")
    )
}

/// Four rows of three used columns; the fourth, unused, is NaN.
fn cubic_rows(entries: &[f32; 12]) -> String {
    let rows = entries
        .chunks_exact(3)
        .map(|row| numbers(&[row[0], row[1], row[2], f32::NAN]));
    format!("[{}]", rows.collect::<Vec<_>>().join(", "))
}

fn tables_of(set: &fixed_sets::Set) -> String {
    let (first, second) = set.spatial.split_at(45);
    let unused = "[f32::NAN; 45]";
    format!(
        "pub const SIGMAS: [f32; 4] = {};\npub const ALP_SCALE_CUBIC_BASE: [[f32; 4]; 4] = {};\n\
         pub const ALP_SPATIAL_QUADRATIC_BASE: [[f32; 45]; 4] = [{unused}, {}, {}, {unused}];\n\
         pub const Q_SAMPLE_ORDER: [usize; 9] = {:?};\n",
        numbers(&set.sigmas),
        cubic_rows(&set.scale),
        numbers(first),
        numbers(second),
        set.order
    )
}

fn geometry_tables_of(set: &fixed_sets::Set) -> String {
    let names = [
        "LOG_SIGMA_ORIGIN",
        "CURVATURE_EPSILON",
        "FIT_T_MIN",
        "FIT_T_MAX",
        "ACCEPT_SIGMA_MIN",
        "ACCEPT_SIGMA_MAX",
        "BLEND_BETA",
        "BLEND_BOOST",
        "COMPATIBILITY_LOWER",
        "COMPATIBILITY_UPPER",
        "FINAL_MOVE_CAP_LOG2",
    ];
    let mut text = format!(
        "pub const ALP_GEOMETRY_SCALE_CUBIC_LOG2: [[f32; 4]; 4] = {};\n",
        cubic_rows(&set.geometry)
    );
    for (name, &value) in names.iter().zip(&set.numbers) {
        writeln!(
            text,
            "pub const ALP_GEOMETRY_{name}: f32 = {};",
            number(value)
        )
        .unwrap();
    }
    text
}
