//! Changes one value, key or section of a TOML document, and every other byte stays as its author wrote it.
//!
//! ```
//! use keep_toml::{insert, set, text};
//!
//! let cargo = "version = \"0.9.3\"  # kept by release.sh\r\n";
//! assert_eq!(set(cargo, "version", "\"1.0.0\"")?, "version = \"1.0.0\"  # kept by release.sh\r\n");
//! assert_eq!(text(cargo, "version")?, "0.9.3");
//! assert_eq!(insert("a = [1, 3]\n", "a[1]", "2")?, "a = [1, 2, 3]\n");
//!
//! let fault = set("a = 1\n", "b", "2").unwrap_err();
//! assert_eq!(fault.reason(), Some("NotFound"));
//! # Ok::<(), keep_toml::Fault>(())
//! ```
//!
//! The work is done by a library that is proved (`crates/keep_c` of the repository); this crate is its safe face. The functions read a
//! document of TOML v1.0.0, the profile [`Profile::Strict`], and are short for [`Call::run`] with it. Each call reads the document anew:
//! for many edits of one document, [`apply`] a script.
//!
//! A place is a number of bytes from the start. Out of memory is [`Fault::Memory`], and nothing here panics.
#![warn(missing_docs)]

use std::fmt;

/// What a document may hold.
#[derive(Clone, Copy, Debug, Default, PartialEq, Eq, Hash)]
pub enum Profile {
    /// TOML v1.0.0.
    #[default]
    Strict,
    /// Also newlines, comments and a last comma in inline tables, `\e`, `\xHH`, and times without seconds.
    Wide,
}

/// What is asked of a document. Paths, keys, values and scripts are as the program takes them.
#[derive(Clone, Copy, Debug, PartialEq, Eq, Hash)]
#[non_exhaustive]
pub enum Call<'a> {
    /// `ok tokens=T nodes=N` and a newline.
    Check,
    /// A line for each node but the root: its path, a tab, its kind.
    List,
    /// The value at a path as it is written, and a newline.
    Get(&'a str),
    /// What the string at a path means.
    Text(&'a str),
    /// Another value at a path. In [`Profile::Wide`] it may be one of that profile.
    Set(&'a str, &'a str),
    /// A value at a path where nothing is, or as an item of an array. In [`Profile::Wide`] it may be one of that profile.
    Insert(&'a str, &'a str),
    /// Another last key of a path.
    Rename(&'a str, &'a str),
    /// A key goes with its line, an item with one comma, a section with its body.
    Remove(&'a str),
    /// The header `[keys]` at the end.
    Table(&'a str),
    /// The header `[[keys]]` at the end.
    Element(&'a str),
    /// All edits of a script, or none. In [`Profile::Wide`] its values are of that profile.
    Apply(&'a str),
}

/// Why there is no answer. Nothing is changed.
#[derive(Clone, Debug, PartialEq, Eq)]
#[non_exhaustive]
pub enum Fault {
    /// The document or the edit is refused, and why.
    Refused(Why),
    /// A path, value, key or script can't be read, and why.
    Unreadable(Why),
    /// Out of memory.
    Memory,
}

/// Why a document, an edit or a word is refused. Its text, by `Display` of [`Fault`], is that of the program.
#[derive(Clone, Debug, PartialEq, Eq)]
pub struct Why {
    text: String,
    at: Option<usize>,
    edit: Option<usize>,
    reason: Option<&'static str>,
}

impl Why {
    fn of(text: String, fault: &raw::Fault) -> Why {
        let given = |n: usize| (n != usize::MAX).then_some(n);
        Why { text, at: given(fault.at), edit: given(fault.edit), reason: word(fault.reason) }
    }
}

// The word of a reason's number, of `enum keep_toml_reason` in keep_toml.h.
fn word(reason: u32) -> Option<&'static str> {
    const READ: [&str; 2] = ["Utf8", "TooDeep"];
    const SYNTAX: [&str; 9] = ["KeyPart", "Escape", "Control", "Unclosed", "Integer", "Float", "DateTime", "Word", "Structure"];
    const RULE: [&str; 5] = ["NotATable", "DefinedTwice", "NotAnArray", "NotByDots", "DuplicateKey"];
    const EDIT: [&str; 8] = ["NotFound", "Exists", "NotValue", "NotTable", "NotKey", "Scattered", "TooDeep", "Profile"];
    const SCRIPT: [&str; 5] = ["Op", "Keys", "Path", "Value", "Shape"];
    let n = (reason % 10).checked_sub(1)? as usize;
    match reason / 10 {
        0 => READ.get(n).copied(),
        1 => SYNTAX.get(n).copied(),
        2 => RULE.get(n).copied(),
        3 => EDIT.get(n).copied(),
        4 => Some("Conflict"),
        5 => SCRIPT.get(n).copied(),
        _ => None,
    }
}

impl Fault {
    /// The place in bytes from the start of the document (of the word where it can't be read).
    pub fn at(&self) -> Option<usize> {
        self.why()?.at
    }

    /// The number of the edit of a script, from 0.
    pub fn edit(&self) -> Option<usize> {
        self.why()?.edit
    }

    /// The reason in one word, as `NotFound`, `DuplicateKey` or `Conflict`.
    pub fn reason(&self) -> Option<&'static str> {
        self.why()?.reason
    }

    fn why(&self) -> Option<&Why> {
        match self {
            Fault::Refused(why) | Fault::Unreadable(why) => Some(why),
            Fault::Memory => None,
        }
    }
}

impl fmt::Display for Fault {
    fn fmt(&self, f: &mut fmt::Formatter<'_>) -> fmt::Result {
        f.write_str(self.why().map_or("out of memory", |why| &why.text))
    }
}

impl std::error::Error for Fault {}

mod raw {
    pub type P = *const u8;
    pub type N = usize;

    // `keep_toml_fault` of keep_toml.h
    #[repr(C)]
    #[derive(Default)]
    pub struct Fault {
        pub kind: u32,
        pub reason: u32,
        pub at: N,
        pub edit: N,
    }

    // crates/keep_c exports these functions; a slice is a pointer and a length there.
    macro_rules! calls {
        ($($name:ident($($word:ident $len:ident),*);)*) => {
            extern "C" {
                $(pub fn $name(
                    profile: u8, document: P, len: N, $($word: P, $len: N,)* out: *mut u8, room: N, size: *mut N, fault: *mut Fault,
                ) -> u8;)*
            }
        };
    }

    calls! {
        keep_toml_check();
        keep_toml_list();
        keep_toml_get(path path_len);
        keep_toml_text(path path_len);
        keep_toml_remove(path path_len);
        keep_toml_table(keys keys_len);
        keep_toml_element(keys keys_len);
        keep_toml_apply(script script_len);
        keep_toml_apply_wide(script script_len);
        keep_toml_set(path path_len, value value_len);
        keep_toml_insert(path path_len, value value_len);
        keep_toml_rename(path path_len, key key_len);
    }

    pub type Of0 = unsafe extern "C" fn(u8, P, N, *mut u8, N, *mut N, *mut Fault) -> u8;
    pub type Of1 = unsafe extern "C" fn(u8, P, N, P, N, *mut u8, N, *mut N, *mut Fault) -> u8;
    pub type Of2 = unsafe extern "C" fn(u8, P, N, P, N, P, N, *mut u8, N, *mut N, *mut Fault) -> u8;
}

impl Call<'_> {
    /// What this call answers about a document.
    ///
    /// # Errors
    ///
    /// [`Fault::Refused`] where the document or the edit is refused, [`Fault::Unreadable`] where a path, value, key or script can't be
    /// read, and [`Fault::Memory`] where memory runs out.
    pub fn run(self, document: &[u8], profile: Profile) -> Result<String, Fault> {
        let (mut out, mut size, mut fault) = (Vec::new(), 0, raw::Fault::default());
        let mut room = self.room(document.len());
        loop {
            out.clear();
            if out.try_reserve_exact(room).is_err() {
                return Err(Fault::Memory);
            }
            // the bytes of a buffer that C gets are initialized, since the library's `out` is a slice
            out.resize(room, 0);
            let status = self.once(document, profile, &mut out, &mut size, &mut fault);
            if status == 3 || (status != 0 && size > out.len()) {
                room = size;
                continue;
            }
            if status == 4 {
                return Err(Fault::Memory);
            }
            out.truncate(size);
            let Ok(text) = String::from_utf8(out) else { unreachable!("answers and reasons are text") };
            return match status {
                0 => Ok(text),
                1 => Err(Fault::Refused(Why::of(text, &fault))),
                _ => Err(Fault::Unreadable(Why::of(text, &fault))),
            };
        }
    }

    // Enough for any reason, and mostly for the answer.
    fn room(self, len: usize) -> usize {
        match self {
            Call::Check | Call::Get(_) | Call::Text(_) => 256,
            Call::List => 4 * len + 128,
            Call::Remove(word) | Call::Table(word) | Call::Element(word) | Call::Apply(word) => len + word.len() + 128,
            Call::Set(path, word) | Call::Insert(path, word) => len + path.len() + word.len() + 128,
            Call::Rename(_, key) => len + 6 * key.len() + 128,
        }
    }

    fn once(self, document: &[u8], profile: Profile, out: &mut [u8], size: &mut usize, fault: &mut raw::Fault) -> u8 {
        enum By<'a> {
            Of0(raw::Of0),
            Of1(raw::Of1, &'a str),
            Of2(raw::Of2, &'a str, &'a str),
        }
        let by = match self {
            Call::Check => By::Of0(raw::keep_toml_check),
            Call::List => By::Of0(raw::keep_toml_list),
            Call::Get(path) => By::Of1(raw::keep_toml_get, path),
            Call::Text(path) => By::Of1(raw::keep_toml_text, path),
            Call::Remove(path) => By::Of1(raw::keep_toml_remove, path),
            Call::Table(keys) => By::Of1(raw::keep_toml_table, keys),
            Call::Element(keys) => By::Of1(raw::keep_toml_element, keys),
            Call::Apply(script) if profile == Profile::Wide => By::Of1(raw::keep_toml_apply_wide, script),
            Call::Apply(script) => By::Of1(raw::keep_toml_apply, script),
            Call::Set(path, value) => By::Of2(raw::keep_toml_set, path, value),
            Call::Insert(path, value) => By::Of2(raw::keep_toml_insert, path, value),
            Call::Rename(path, key) => By::Of2(raw::keep_toml_rename, path, key),
        };
        let (profile, d, n, out, room) = (profile as u8, document.as_ptr(), document.len(), out.as_mut_ptr(), out.len());
        // SAFETY: each pointer comes from a slice with its length, is not null, and `out`, `size` and `fault` are borrowed
        // alone. The library keeps none of them.
        unsafe {
            match by {
                By::Of0(call) => call(profile, d, n, out, room, size, fault),
                By::Of1(call, a) => call(profile, d, n, a.as_ptr(), a.len(), out, room, size, fault),
                By::Of2(call, a, b) => call(profile, d, n, a.as_ptr(), a.len(), b.as_ptr(), b.len(), out, room, size, fault),
            }
        }
    }
}

macro_rules! short {
    ($($(#[$doc:meta])* $name:ident, $call:ident $(, $word:ident)*;)*) => {
        $($(#[$doc])*
        ///
        /// # Errors
        ///
        /// Those of [`Call::run`].
        pub fn $name(document: &str $(, $word: &str)*) -> Result<String, Fault> {
            Call::$call($($word),*).run(document.as_bytes(), Profile::Strict)
        })*
    };
}

short! {
    /// What the string at a path means.
    text, Text, path;
    /// The document with another value at a path.
    set, Set, path, value;
    /// The document with a value at a path where nothing is, or as an item of an array.
    insert, Insert, path, value;
    /// The document with another last key of a path.
    rename, Rename, path, key;
    /// The document without a key and its line, an item and one comma, or a section.
    remove, Remove, path;
    /// The document with the header `[keys]` at its end.
    table, Table, keys;
    /// The document with the header `[[keys]]` at its end.
    element, Element, keys;
    /// The document after all edits of a script, or none.
    apply, Apply, script;
}

/// Whether the text is a document.
///
/// # Errors
///
/// Those of [`Call::run`].
pub fn check(document: &str) -> Result<(), Fault> {
    Call::Check.run(document.as_bytes(), Profile::Strict).map(drop)
}

/// The value at a path as it is written.
///
/// # Errors
///
/// Those of [`Call::run`].
pub fn get(document: &str, path: &str) -> Result<String, Fault> {
    let mut line = Call::Get(path).run(document.as_bytes(), Profile::Strict)?;
    line.pop();
    Ok(line)
}

/// The text of a value that means this string, quoted and escaped.
///
/// ```
/// assert_eq!(keep_toml::quoted("a\"b\n"), r#""a\"b\n""#);
/// ```
pub fn quoted(plain: &str) -> String {
    use fmt::Write;
    let mut text = String::with_capacity(plain.len() + 2);
    text.push('"');
    for c in plain.chars() {
        match c {
            '"' => text.push_str("\\\""),
            '\\' => text.push_str("\\\\"),
            '\n' => text.push_str("\\n"),
            '\t' => text.push_str("\\t"),
            '\r' => text.push_str("\\r"),
            '\0'..='\x1f' | '\x7f' => drop(write!(text, "\\u{:04X}", c as u32)),
            c => text.push(c),
        }
    }
    text.push('"');
    text
}
