//! Scene paths.

use crate::ffi::{Reply, path_text, paths};
use crate::refusal::{Refusal, Result, accepted, read};
use std::borrow::Borrow;
use std::fmt;
use std::str::FromStr;

/// The maximum length of a path in bytes of UTF-8.
pub const MAX_PATH_LEN: usize = 255;

/// The maximum number of ancestors of a path, including the path itself.
const MAX_ANCESTORS: usize = 128;

/// A legal scene path of at most 255 bytes of UTF-8, such as `/Line{season=winter}Stop/Signal.aspect:state`.
///
/// A path is empty, or `/`, or absolute: names, each preceded by a slash, and perhaps a property, which is a dot and names
/// joined by `:`. A name may be followed by variant selections `{set=sel}`; the name after a selection has no slash before
/// it. A prim path has names only. `docs/REQUIREMENTS.md` (Path texts) defines the grammar. Paths are ordered by the bytes of
/// their texts.
///
/// A name, also that of a property or a variant set, begins with an ASCII letter, `_` or a character from U+0080 up, and
/// continues with these and ASCII digits. Controls (U+0080 to U+009F) and white space (U+00A0, U+1680, U+2000 to U+200A,
/// U+2028, U+2029, U+202F, U+205F, U+3000) are excluded. The variant `sel` has only ASCII letters, digits and `_`. Names are
/// compared as they are written: `é` as one character and `e` with a combining accent are two names.
///
/// After a property an absolute path in brackets may follow, the target of a relationship: `/Line7/Quay.next[/Line7/Depot]`.
/// It ends the text, and may have brackets itself; a text has at most four opening brackets. What comes before the first one
/// is the path's own part. Only that part is counted, stripped, and moved by maps and routes.
///
/// ```
/// use mudvizsor::{Path, Refusal};
///
/// let path: Path = "/Line7{season=winter}Quay.state".parse()?;
/// assert_eq!(path.to_string(), "/Line7{season=winter}Quay.state");
/// assert_eq!(Path::try_from("/Line7/"), Err(Refusal::NotLegal));
/// assert!(Path::new("/Line7/Quay.next[/Line7/Depot]").is_ok());
/// assert_eq!(Path::new("/Line7/Quay[/Line7/Depot]"), Err(Refusal::NotLegal));
///
/// let signal = Path::new("/Széll_Kálmán_tér{idő=fagy}Jelző_12.állás")?;
/// assert_eq!(signal.parent()?.as_str(), "/Széll_Kálmán_tér{idő=fagy}Jelző_12");
/// assert_eq!(Path::new("/Széll_Kálmán_tér{idő=hó}"), Err(Refusal::NotLegal)); // a variant is ASCII
/// assert_eq!(Path::new("/Széll\u{a0}Kálmán"), Err(Refusal::NotLegal)); // white space
/// # Ok::<(), Refusal>(())
/// ```
#[derive(Clone, Default, PartialEq, Eq, PartialOrd, Ord, Hash)]
pub struct Path(Box<str>);

impl Path {
    /// Creates a path from its text. A text in bytes is converted by `Path::try_from`.
    ///
    /// # Errors
    ///
    /// [`Refusal::TooLong`] (1) if the text is longer than 255 bytes, [`Refusal::NotLegal`] (2) if it is not a legal path.
    ///
    /// ```
    /// use mudvizsor::{Path, Refusal};
    ///
    /// assert_eq!(Path::new("/Line7/Quay").unwrap().as_str(), "/Line7/Quay");
    /// assert_eq!(Path::new("/Krisztina_körút").unwrap().as_str(), "/Krisztina_körút");
    /// assert_eq!(Path::new("Line7"), Err(Refusal::NotLegal));
    /// assert_eq!(Path::new(&"/n".repeat(128)), Err(Refusal::TooLong));
    /// assert_eq!(Path::new(&"/é".repeat(86)), Err(Refusal::TooLong)); // 172 characters, 258 bytes
    /// ```
    pub fn new(text: &str) -> Result<Self> {
        read(paths::new(text.as_bytes()))?;
        Ok(Path(text.into()))
    }

    /// Returns the path `/`, the root of all absolute paths.
    ///
    /// ```
    /// assert_eq!(mudvizsor::Path::root().as_str(), "/");
    /// ```
    pub fn root() -> Self {
        Path("/".into())
    }

    /// Returns the empty path. As the target of a pair it blocks the source, which then has no resulting path.
    ///
    /// ```
    /// assert_eq!(mudvizsor::Path::empty().as_str(), "");
    /// ```
    pub fn empty() -> Self {
        Path::default()
    }

    /// Creates a path from bytes that the library wrote as a path, or accepted as one.
    pub(crate) fn written(bytes: &[u8]) -> Self {
        Path(path_text(bytes).into())
    }

    /// Returns the text of the path.
    ///
    /// ```
    /// # use mudvizsor::Path;
    /// assert_eq!(Path::new("/Line7")?.as_str(), "/Line7");
    /// # Ok::<(), mudvizsor::Refusal>(())
    /// ```
    pub fn as_str(&self) -> &str {
        &self.0
    }

    /// Returns the text of the path as bytes.
    ///
    /// ```
    /// # use mudvizsor::Path;
    /// assert_eq!(Path::new("/Line7")?.as_bytes(), b"/Line7");
    /// # Ok::<(), mudvizsor::Refusal>(())
    /// ```
    pub fn as_bytes(&self) -> &[u8] {
        self.0.as_bytes()
    }

    /// Returns whether it is the empty path.
    ///
    /// ```
    /// # use mudvizsor::Path;
    /// assert!(Path::empty().is_empty() && !Path::root().is_empty());
    /// ```
    pub fn is_empty(&self) -> bool {
        self.0.is_empty()
    }

    /// Returns whether it can be an end (source or target) of a pair: a prim path, which has names only, `/` or the empty
    /// path.
    ///
    /// ```
    /// # use mudvizsor::Path;
    /// assert!(Path::new("/Line7/Quay")?.is_end());
    /// assert!(!Path::new("/Line7.state")?.is_end());
    /// # Ok::<(), mudvizsor::Refusal>(())
    /// ```
    pub fn is_end(&self) -> bool {
        accepted(paths::is_end(self.as_bytes())) != 0
    }

    /// Returns whether it contains a variant selection before its brackets, if it has any.
    ///
    /// ```
    /// # use mudvizsor::Path;
    /// assert!(Path::new("/Line7{season=winter}Quay")?.has_variant_selection());
    /// assert!(!Path::new("/Line7.next[/Line8{season=winter}]")?.has_variant_selection());
    /// # Ok::<(), mudvizsor::Refusal>(())
    /// ```
    pub fn has_variant_selection(&self) -> bool {
        accepted(paths::has_variant_selection(self.as_bytes())) != 0
    }

    /// Returns the number of names and selections. A property is not counted, nor is anything in brackets.
    ///
    /// ```
    /// # use mudvizsor::Path;
    /// assert_eq!(Path::new("/Line7{season=winter}Quay.state")?.element_count(), 3);
    /// assert_eq!(Path::new("/Line7.next[/Line8/Quay]")?.element_count(), 1);
    /// # Ok::<(), mudvizsor::Refusal>(())
    /// ```
    pub fn element_count(&self) -> usize {
        accepted(paths::element_count(self.as_bytes()))
    }

    /// Returns the number of names. Selections and a property are not counted, nor is anything in brackets.
    ///
    /// ```
    /// # use mudvizsor::Path;
    /// assert_eq!(Path::new("/Line7{season=winter}Quay.state")?.prim_element_count(), 2);
    /// # Ok::<(), mudvizsor::Refusal>(())
    /// ```
    pub fn prim_element_count(&self) -> usize {
        accepted(paths::prim_element_count(self.as_bytes()))
    }

    /// Returns whether `prefix` is the path itself or one of its ancestors. The empty path is a prefix of every path. The
    /// property before brackets is the parent of the path, but no prefix of it.
    ///
    /// ```
    /// # use mudvizsor::Path;
    /// let line = Path::new("/Line7")?;
    /// assert!(Path::new("/Line7/Quay")?.has_prefix(&line));
    /// assert!(!Path::new("/Line71")?.has_prefix(&line));
    /// let address = Path::new("/Line7.next[/Line8]")?;
    /// assert!(address.has_prefix(&line) && !address.has_prefix(&address.parent()?));
    /// # Ok::<(), mudvizsor::Refusal>(())
    /// ```
    pub fn has_prefix(&self, prefix: &Path) -> bool {
        accepted(paths::has_prefix(self.as_bytes(), prefix.as_bytes())) != 0
    }

    /// Returns the index at which the rest of the path begins, which follows `prefix`; `None` if the path does not have that
    /// [prefix](Self::has_prefix). The index counts bytes and is always a character boundary.
    ///
    /// A separating slash belongs to the rest. So after the prefix `/` the rest of a longer path is the whole path.
    ///
    /// ```
    /// # use mudvizsor::Path;
    /// let lamp = Path::new("/Line7/Quay/Lamp_2.lit")?;
    /// assert_eq!(lamp.rest_start(&Path::new("/Line7/Quay")?), Some(11));
    /// assert_eq!(&lamp.as_str()[11..], "/Lamp_2.lit");
    /// assert_eq!(lamp.rest_start(&lamp), Some(lamp.as_str().len()));
    /// assert_eq!(lamp.rest_start(&Path::root()), Some(0));
    /// assert_eq!(lamp.rest_start(&Path::new("/Line")?), None);
    /// # Ok::<(), mudvizsor::Refusal>(())
    /// ```
    pub fn rest_start(&self, prefix: &Path) -> Option<usize> {
        let value = accepted(paths::rest_start(self.as_bytes(), prefix.as_bytes()));
        (value % 256 == 1).then_some(value / 256)
    }

    /// Returns the path with its prefix `old` replaced by `new`.
    ///
    /// # Errors
    ///
    /// [`Refusal::NoPath`] (6) if `old` is not a prefix, [`Refusal::MadeTooLong`] (7) or [`Refusal::MadeNotLegal`] (8) if
    /// the result is too long or not legal.
    ///
    /// ```
    /// # use mudvizsor::{Path, Refusal};
    /// let (line, town) = (Path::new("/Line7")?, Path::new("/Town")?);
    /// assert_eq!(Path::new("/Line7/Quay")?.replace_prefix(&line, &town)?.as_str(), "/Town/Quay");
    /// assert_eq!(Path::new("/Line8")?.replace_prefix(&line, &town), Err(Refusal::NoPath));
    /// assert_eq!(Path::new("/Line7.state")?.replace_prefix(&line, &Path::root()), Err(Refusal::MadeNotLegal));
    /// # Ok::<(), Refusal>(())
    /// ```
    pub fn replace_prefix(&self, old: &Path, new: &Path) -> Result<Path> {
        read_path(|out| paths::replace_prefix(self.as_bytes(), old.as_bytes(), new.as_bytes(), out))
    }

    /// Returns the path without its brackets or, if it has none, without its property or, if it has none either, without its
    /// last element.
    ///
    /// # Errors
    ///
    /// [`Refusal::NoPath`] (6) for `/` and the empty path, which have no parent.
    ///
    /// ```
    /// # use mudvizsor::{Path, Refusal};
    /// assert_eq!(Path::new("/Line7.next[/Line8]")?.parent()?.as_str(), "/Line7.next");
    /// assert_eq!(Path::new("/Line7.state")?.parent()?.as_str(), "/Line7");
    /// assert_eq!(Path::new("/Line7{season=winter}Quay")?.parent()?.as_str(), "/Line7{season=winter}");
    /// assert_eq!(Path::new("/Széll_Kálmán_tér/Jelző_12")?.parent()?.as_str(), "/Széll_Kálmán_tér");
    /// assert_eq!(Path::root().parent(), Err(Refusal::NoPath));
    /// # Ok::<(), Refusal>(())
    /// ```
    pub fn parent(&self) -> Result<Path> {
        read_path(|out| paths::parent(self.as_bytes(), out))
    }

    /// Returns the path without its property and brackets or, if it has no property and ends in a selection, without that
    /// selection.
    ///
    /// ```
    /// # use mudvizsor::Path;
    /// assert_eq!(Path::new("/Line7/Quay.state")?.prim_path().as_str(), "/Line7/Quay");
    /// assert_eq!(Path::new("/Line7/Quay.next[/Line8]")?.prim_path().as_str(), "/Line7/Quay");
    /// assert_eq!(Path::new("/Line7{season=winter}")?.prim_path().as_str(), "/Line7");
    /// # Ok::<(), mudvizsor::Refusal>(())
    /// ```
    pub fn prim_path(&self) -> Path {
        let mut out = [0; MAX_PATH_LEN];
        let length = accepted(paths::prim_path(self.as_bytes(), &mut out));
        Path::written(&out[..length])
    }

    /// Returns the path without its property, and the name of the property.
    ///
    /// # Errors
    ///
    /// [`Refusal::NoPath`] (6) if the path has no property, or has brackets after it.
    ///
    /// ```
    /// # use mudvizsor::{Path, Refusal};
    /// let lamp = Path::new("/Mast/Lamp_2.aspect:state")?;
    /// let (prim, name) = lamp.split_property()?;
    /// assert_eq!((prim.as_str(), name), ("/Mast/Lamp_2", "aspect:state"));
    /// assert_eq!(prim.split_property(), Err(Refusal::NoPath));
    /// assert_eq!(Path::new("/Mast.next[/Switch]")?.split_property(), Err(Refusal::NoPath));
    /// # Ok::<(), Refusal>(())
    /// ```
    pub fn split_property(&self) -> Result<(Path, &str)> {
        let prim = read_path(|out| paths::split_property(self.as_bytes(), out))?;
        let name = &self.0[prim.0.len() + 1..];
        Ok((prim, name))
    }

    /// Returns the path without its variant selections. Those in brackets are kept.
    ///
    /// ```
    /// # use mudvizsor::Path;
    /// let path = Path::new("/Line7{season=winter}{snow=deep}Quay.state")?;
    /// assert_eq!(path.strip_variant_selections().as_str(), "/Line7/Quay.state");
    /// let address = Path::new("/Line7{season=winter}Quay.next[/Line8{snow=deep}]")?;
    /// assert_eq!(address.strip_variant_selections().as_str(), "/Line7/Quay.next[/Line8{snow=deep}]");
    /// # Ok::<(), mudvizsor::Refusal>(())
    /// ```
    pub fn strip_variant_selections(&self) -> Path {
        let mut out = [0; MAX_PATH_LEN];
        let length = accepted(paths::strip_variant_selections(self.as_bytes(), &mut out));
        Path::written(&out[..length])
    }

    /// Returns an iterator over the path itself, its parent, the parent of that, and so on.
    ///
    /// ```
    /// # use mudvizsor::Path;
    /// let path = Path::new("/Line7/Quay.state")?;
    /// let texts: Vec<String> = path.ancestors().map(|each| each.to_string()).collect();
    /// assert_eq!(texts, ["/Line7/Quay.state", "/Line7/Quay", "/Line7", "/"]);
    /// assert_eq!(path.ancestors().len(), 4);
    /// # Ok::<(), mudvizsor::Refusal>(())
    /// ```
    pub fn ancestors(&self) -> Ancestors<'_> {
        let mut lengths = vec![0; MAX_ANCESTORS];
        let count = accepted(paths::ancestors(self.as_bytes(), &mut lengths));
        lengths.truncate(count);
        Ancestors { path: self, lengths: lengths.into_iter() }
    }

    /// Returns the path in the brackets, without the brackets.
    ///
    /// # Errors
    ///
    /// [`Refusal::NoPath`] (6) if the path has no brackets.
    ///
    /// ```
    /// # use mudvizsor::{Path, Refusal};
    /// let target = Path::new("/Mast.next[/Switch.guard[/Mast/Head]]")?.embedded_target()?;
    /// assert_eq!(target.as_str(), "/Switch.guard[/Mast/Head]");
    /// assert_eq!(target.embedded_target()?.as_str(), "/Mast/Head");
    /// assert_eq!(Path::new("/Mast.next")?.embedded_target(), Err(Refusal::NoPath));
    /// # Ok::<(), Refusal>(())
    /// ```
    pub fn embedded_target(&self) -> Result<Path> {
        read_path(|out| paths::embedded_target(self.as_bytes(), out))
    }

    /// Returns the path with the path in its brackets replaced by `target`.
    ///
    /// # Errors
    ///
    /// [`Refusal::NoPath`] (6) if the path has no brackets, [`Refusal::MadeTooLong`] (7) or [`Refusal::MadeNotLegal`] (8) if
    /// the result is too long or not legal. It is not legal if `target` is empty or has four brackets itself.
    ///
    /// ```
    /// # use mudvizsor::{Path, Refusal};
    /// let address = Path::new("/Mast.next[/Switch.guard[/Mast/Head]]")?;
    /// let moved = address.replace_embedded_target(&Path::new("/Line7/Points_A")?)?;
    /// assert_eq!(moved.as_str(), "/Mast.next[/Line7/Points_A]");
    /// assert_eq!(address.replace_embedded_target(&Path::empty()), Err(Refusal::MadeNotLegal));
    /// assert_eq!(Path::new("/Mast")?.replace_embedded_target(&moved), Err(Refusal::NoPath));
    /// # Ok::<(), Refusal>(())
    /// ```
    pub fn replace_embedded_target(&self, target: &Path) -> Result<Path> {
        read_path(|out| paths::replace_embedded_target(self.as_bytes(), target.as_bytes(), out))
    }
}

/// Makes a call that writes a path, with a large enough buffer, and returns that path.
pub(crate) fn read_path(call: impl FnOnce(&mut [u8]) -> Reply) -> Result<Path> {
    let mut out = [0; MAX_PATH_LEN];
    let length = read(call(&mut out))?;
    Ok(Path::written(&out[..length]))
}

/// An iterator over a path and its ancestors, created by [`Path::ancestors`].
#[derive(Debug, Clone)]
pub struct Ancestors<'a> {
    path: &'a Path,
    /// The lengths of the remaining ones: each is an initial part of the path.
    lengths: std::vec::IntoIter<usize>,
}

impl Ancestors<'_> {
    /// Returns the initial part of the path with this length.
    fn ancestor(&self, length: usize) -> Path {
        Path(self.path.0[..length].into())
    }
}

impl Iterator for Ancestors<'_> {
    type Item = Path;

    fn next(&mut self) -> Option<Path> {
        self.lengths.next().map(|length| self.ancestor(length))
    }

    fn size_hint(&self) -> (usize, Option<usize>) {
        self.lengths.size_hint()
    }
}

impl DoubleEndedIterator for Ancestors<'_> {
    fn next_back(&mut self) -> Option<Path> {
        self.lengths.next_back().map(|length| self.ancestor(length))
    }
}

impl ExactSizeIterator for Ancestors<'_> {}

impl std::iter::FusedIterator for Ancestors<'_> {}

impl fmt::Display for Path {
    fn fmt(&self, f: &mut fmt::Formatter) -> fmt::Result {
        f.pad(&self.0)
    }
}

impl fmt::Debug for Path {
    fn fmt(&self, f: &mut fmt::Formatter) -> fmt::Result {
        write!(f, "Path({:?})", &*self.0)
    }
}

impl FromStr for Path {
    type Err = Refusal;

    fn from_str(text: &str) -> Result<Self> {
        Path::new(text)
    }
}

impl TryFrom<&str> for Path {
    type Error = Refusal;

    fn try_from(text: &str) -> Result<Self> {
        Path::new(text)
    }
}

impl TryFrom<String> for Path {
    type Error = Refusal;

    fn try_from(text: String) -> Result<Self> {
        read(paths::new(text.as_bytes()))?;
        Ok(Path(text.into()))
    }
}

/// Converts bytes, which need not be UTF-8.
///
/// ```
/// use mudvizsor::{Path, Refusal};
///
/// let path = Path::try_from("/Jelző_12".as_bytes())?;
/// assert_eq!(path.as_str(), "/Jelző_12");
/// assert_eq!(Path::try_from(&b"/Jelz\xf5_12"[..]), Err(Refusal::NotLegal)); // Latin-2, not UTF-8
/// # Ok::<(), Refusal>(())
/// ```
impl TryFrom<&[u8]> for Path {
    type Error = Refusal;

    fn try_from(bytes: &[u8]) -> Result<Self> {
        read(paths::new(bytes))?;
        Ok(Path::written(bytes))
    }
}

impl AsRef<str> for Path {
    fn as_ref(&self) -> &str {
        &self.0
    }
}

impl Borrow<str> for Path {
    fn borrow(&self) -> &str {
        &self.0
    }
}

impl From<Path> for String {
    fn from(path: Path) -> String {
        path.0.into()
    }
}

#[cfg(test)]
mod tests;
