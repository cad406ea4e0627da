//! The parts of polars-core 0.55.2 that the oracle compiles: where they are found, and that they are that text.
//!
//! Shared by the build script and its test.

use std::ffi::OsString;
use std::fs;
use std::ops::RangeInclusive;
use std::path::{Path, PathBuf};

/// Names the folder of the crate, where it is set.
pub const VARIABLE: &str = "POLARS_SRC";

/// The folder of the crate where the variable isn't set: beside the repository.
pub const DEFAULT: &str = concat!(env!("CARGO_MANIFEST_DIR"), "/../../../shared/docs/src");

/// A file of the crate, or a part of one.
pub struct Source {
    /// The file's path in the published crate.
    pub path: &'static str,
    /// The name under which the library includes the text.
    pub name: &'static str,
    /// The part to compile; None for the whole file.
    pub cut: Option<Cut>,
    /// The [`hash`] of the text.
    pub hash: u64,
}

/// Lines of a file.
pub struct Cut {
    /// Their numbers, from 1 on.
    pub lines: RangeInclusive<usize>,
    /// What the first of them says.
    pub first: &'static str,
    /// What the last of them says.
    pub last: &'static str,
    /// What closes an item that goes on after the last line.
    pub close: &'static str,
}

/// Everything of the crate that the oracle compiles.
pub const SOURCES: [Source; 8] = [
    whole("src/utils/supertype.rs", "supertype.rs", 0x3E89_7FB7_724A_8E9D),
    whole("src/datatypes/dtype.rs", "dtype.rs", 0x3CD7_222F_5E24_9697),
    whole("src/datatypes/field.rs", "field.rs", 0x0002_493D_6CB4_BD4E),
    whole("src/datatypes/temporal/time_unit.rs", "time_unit.rs", 0x4767_F237_2F6C_DA5A),
    whole("src/datatypes/temporal/time_zone.rs", "time_zone.rs", 0x6B44_A69E_C61D_3B37),
    Source {
        path: "src/utils/mod.rs",
        name: "get_time_units.rs",
        cut: Some(Cut {
            lines: 804..=811,
            first: "pub fn get_time_units(tu_l: &TimeUnit, tu_r: &TimeUnit) -> TimeUnit {",
            last: "}",
            close: "",
        }),
        hash: 0xE614_F065_13FF_FFD6,
    },
    Source {
        path: "src/datatypes/any_value.rs",
        name: "any_value.rs",
        cut: Some(Cut { lines: 33..=117, first: "#[derive(Debug, Clone, Default)]", last: "}", close: "" }),
        hash: 0xE85D_78E7_646B_12ED,
    },
    Source {
        path: "src/datatypes/any_value.rs",
        name: "any_value_dtype.rs",
        cut: Some(Cut { lines: 229..=286, first: "impl<'a> AnyValue<'a> {", last: "    }", close: "}\n" }),
        hash: 0x13C7_E29F_DD02_99C0,
    },
];

const fn whole(path: &'static str, name: &'static str, hash: u64) -> Source {
    Source { path, name, cut: None, hash }
}

/// A text of which one line is another.
pub struct Edit {
    /// The name of the text.
    pub source: &'static str,
    /// The name under which the library includes the edited text.
    pub name: &'static str,
    /// The line, which the text must have exactly once.
    pub line: &'static str,
    /// What stands in its place.
    pub other: &'static str,
}

/// supertype.rs with inner flags that can be set: every call that an arm makes has the default flags, so the body of that
/// default asks for those that are set.
pub const INNER_FLAGS: Edit = Edit {
    source: "supertype.rs",
    name: "supertype_inner_flags.rs",
    line: "        SuperTypeFlags::from_bits_truncate(0) | SuperTypeFlags::ALLOW_PRIMITIVE_TO_STRING",
    other: "        super::inner_flags()",
};

impl Source {
    /// The text to compile, from the file at `path`.
    pub fn read(&self, path: &Path) -> Result<String, String> {
        fs::read_to_string(path)
            .map_err(|error| error.to_string())
            .and_then(|file| self.check(&file))
            .map_err(|error| format!("{}: {error}", path.display()))
    }

    /// The text to compile, from what its file holds. Any other text than the crate's is an error; only the line ends
    /// of a checkout on Windows are taken for the crate's own.
    pub fn check(&self, file: &str) -> Result<String, String> {
        let file = file.replace("\r\n", "\n");
        let text = match &self.cut {
            Some(cut) => cut.of(&file)?,
            None => file,
        };
        match hash(&text) {
            found if found == self.hash => Ok(text),
            found => Err(format!(
                "{} is not the text of polars-core 0.55.2 (its hash is {found:#018x}, not {:#018x})",
                self.name, self.hash
            )),
        }
    }
}

impl Cut {
    /// These lines of a file, closed.
    fn of(&self, file: &str) -> Result<String, String> {
        let (start, end) = (*self.lines.start(), *self.lines.end());
        let lines: Vec<&str> = file.lines().skip(start - 1).take(end + 1 - start).collect();
        for (number, expected) in [(start, self.first), (end, self.last)] {
            if lines.get(number - start) != Some(&expected) {
                return Err(format!("line {number} is not {expected:?}"));
            }
        }
        Ok(lines.join("\n") + "\n" + self.close)
    }
}

impl Edit {
    /// The edited text.
    pub fn of(&self, text: &str) -> Result<String, String> {
        let times = text.lines().filter(|line| *line == self.line).count();
        if times != 1 {
            return Err(format!("{} has the line {:?} {times} times and not once", self.source, self.line));
        }
        let lines = text.lines().map(|line| if line == self.line { self.other } else { line });
        Ok(lines.flat_map(|line| [line, "\n"]).collect())
    }
}

/// FNV-1a with 64 bits: it is there to notice an edit or another version, not a forger, who would edit it as well.
pub fn hash(text: &str) -> u64 {
    text.bytes().fold(0xCBF2_9CE4_8422_2325, |hash, byte| (hash ^ u64::from(byte)).wrapping_mul(0x100_0000_01B3))
}

/// A folder with the crate's files.
pub struct Folder(pub PathBuf);

impl Folder {
    /// The folder that [`VARIABLE`] names or the default one, if there is one. One that is named must be there.
    pub fn locate(named: Option<OsString>) -> Result<Option<Folder>, String> {
        let Some(named) = named.filter(|path| !path.is_empty()).map(PathBuf::from) else {
            let default = PathBuf::from(DEFAULT);
            return Ok(default.is_dir().then_some(Folder(default)));
        };
        if named.is_absolute() && named.is_dir() {
            Ok(Some(Folder(named)))
        } else {
            Err(format!("{VARIABLE} must be the absolute path of a folder, and {} is not", named.display()))
        }
    }

    /// Where a file of the crate is: at its own path, or flat, with `--` for every `/`.
    pub fn find(&self, path: &str) -> Result<PathBuf, String> {
        let flat = format!("src--{}.txt", path.replace('/', "--"));
        [path, &flat]
            .map(|name| self.0.join(name))
            .into_iter()
            .find(|file| file.is_file())
            .ok_or_else(|| format!("{} has neither {path} nor {flat} of polars-core 0.55.2", self.0.display()))
    }
}
