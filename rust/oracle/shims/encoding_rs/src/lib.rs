//! Stands in for the crate `encoding_rs`, which is not supplied.
//!
//! Real: UTF-8, both ways, which is the only code page the project's texts
//! use. Not real: every other encoding is a name only and panics with that
//! name when used. The real `decode` also looks for a byte order mark; here
//! bytes that begin with one make it panic instead of guessing.

use std::borrow::Cow;

/// An encoding: here only its name.
pub struct Encoding {
    name: &'static str,
}

/// How far an encoder came.
pub enum EncoderResult {
    InputEmpty,
    OutputFull,
    Unmappable(char),
}

impl Encoding {
    /// Text for the bytes, the encoding used, and whether there were errors.
    pub fn decode<'a>(
        &'static self,
        bytes: &'a [u8],
    ) -> (Cow<'a, str>, &'static Encoding, bool) {
        self.refuse_unless_utf8();
        let marks: [&[u8]; 3] =
            [&[0xef, 0xbb, 0xbf], &[0xfe, 0xff], &[0xff, 0xfe]];
        if marks.iter().any(|mark| bytes.starts_with(mark)) {
            panic!("the encoding_rs shim doesn't decide byte order marks");
        }
        let text = String::from_utf8_lossy(bytes);
        let had_errors = matches!(text, Cow::Owned(_));
        (text, self, had_errors)
    }

    /// An encoder for this encoding.
    pub fn new_encoder(&'static self) -> Encoder {
        self.refuse_unless_utf8();
        Encoder {}
    }

    fn refuse_unless_utf8(&self) {
        if self.name != "UTF-8" {
            panic!("the encoding_rs shim doesn't have {}", self.name);
        }
    }
}

/// An encoder to UTF-8: it copies.
pub struct Encoder {}

impl Encoder {
    /// Copies as many whole characters as fit; says how much was read and
    /// how much was written.
    pub fn encode_from_utf8_without_replacement(
        &mut self,
        source: &str,
        target: &mut [u8],
        _last: bool,
    ) -> (EncoderResult, usize, usize) {
        let mut length = source.len().min(target.len());
        while !source.is_char_boundary(length) {
            length -= 1;
        }
        target[..length].copy_from_slice(&source.as_bytes()[..length]);
        let result = if length == source.len() {
            EncoderResult::InputEmpty
        } else {
            EncoderResult::OutputFull
        };
        (result, length, length)
    }
}

macro_rules! encodings {
    ($($constant:ident $name:literal),* $(,)?) => {
        $(pub static $constant: &Encoding = &Encoding { name: $name };)*
    };
}

encodings! {
    BIG5 "Big5",
    EUC_KR "EUC-KR",
    GBK "GBK",
    ISO_8859_2 "ISO-8859-2",
    ISO_8859_3 "ISO-8859-3",
    ISO_8859_4 "ISO-8859-4",
    ISO_8859_5 "ISO-8859-5",
    ISO_8859_6 "ISO-8859-6",
    ISO_8859_7 "ISO-8859-7",
    ISO_8859_8 "ISO-8859-8",
    SHIFT_JIS "Shift_JIS",
    UTF_8 "UTF-8",
    WINDOWS_1250 "windows-1250",
    WINDOWS_1251 "windows-1251",
    WINDOWS_1252 "windows-1252",
    WINDOWS_1253 "windows-1253",
    WINDOWS_1254 "windows-1254",
    WINDOWS_1255 "windows-1255",
    WINDOWS_1256 "windows-1256",
    WINDOWS_1257 "windows-1257",
    WINDOWS_1258 "windows-1258",
}

// `codepage.rs` takes these two by reference, so they are no references.
pub static MACINTOSH_INIT: Encoding = Encoding { name: "macintosh" };
pub static X_MAC_CYRILLIC_INIT: Encoding = Encoding { name: "x-mac-cyrillic" };
