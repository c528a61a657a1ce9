//! The texts that are timed, the same in every run.

use frames_original::load::signal;
use original::sdf::Path;
use texts::random::Random;

/// The number of texts that are timed together.
pub const COUNT: usize = 2_000;

const LOWER: &str = "abcdefghijklmnopqrstuvwxyz";
/// Characters of names in ASCII; the first 53 may start a name.
const MIXED: &str = "abcdefghijklmnopqrstuvwxyzABCDEFGHIJKLMNOPQRSTUVWXYZ_0123456789";
/// Letters of which about one in three has two bytes.
const LATIN: &str = "abcdefghijklmnopqrstuvwxyzäöüßéèêçàñôåø";
/// Two bytes each.
const CYRILLIC: &str = "абвгдежзийклмнопрстуфхцчшщъыьэюя";
/// Three bytes each.
const CHINESE: &str = "信号灯轨道车站桥门东西南北上下左右红黄绿";
/// Four bytes each: letters of the Gothic alphabet.
const GOTHIC: &str = "𐌰𐌱𐌲𐌳𐌴𐌵𐌶𐌷𐌸𐌹𐌺𐌻𐌼𐌽𐌾𐌿𐍀𐍂𐍃𐍄𐍅𐍆𐍇𐍈𐍉";

/// Letters of one and two bytes and, about once in ten, one of three bytes.
const FRENCH: &str = "abcdefghijlmnopqrstuvéèçà’’’";

/// The alphabet of the names.
#[derive(Clone, Copy)]
pub enum Names {
    Mixed,
    LowerCase,
    Latin,
    Cyrillic,
    Chinese,
    Gothic,
    French,
}

impl Names {
    pub const OUTSIDE_ASCII: [Names; 5] =
        [Names::Latin, Names::Cyrillic, Names::Chinese, Names::Gothic, Names::French];

    pub fn title(self) -> &'static str {
        match self {
            Names::Mixed => "letters, digits, `_`",
            Names::LowerCase => "lower case",
            Names::Latin => "Latin, a third with accents",
            Names::Cyrillic => "Cyrillic (two bytes)",
            Names::Chinese => "Chinese (three bytes)",
            Names::Gothic => "Gothic (four bytes)",
            Names::French => "French, one in ten is `’`",
        }
    }

    /// The alphabet of the variants of selections, which must be ASCII.
    fn of_variants(self) -> Names {
        if self.characters().is_ascii() { self } else { Names::LowerCase }
    }

    fn characters(self) -> &'static str {
        match self {
            Names::Mixed => MIXED,
            Names::LowerCase => LOWER,
            Names::Latin => LATIN,
            Names::Cyrillic => CYRILLIC,
            Names::Chinese => CHINESE,
            Names::Gothic => GOTHIC,
            Names::French => FRENCH,
        }
    }
}

/// A path, its old prefix and the new one.
pub struct Replacement {
    pub path: String,
    pub old: String,
    pub new: String,
}

/// A path with brackets, and a target to replace the one in them.
pub struct TargetReplacement {
    pub path: String,
    pub target: String,
}

/// A map as a list of pairs, and paths that it maps.
pub struct MapInput {
    pub pairs: Vec<[String; 2]>,
    pub paths: Vec<String>,
}

/// A route as lists of pairs, and paths that it maps over all its legs.
pub struct RouteInput {
    pub legs: Vec<Vec<[String; 2]>>,
    pub paths: Vec<String>,
}

/// Paths of about `length` bytes.
pub fn paths(names: Names, length: usize, count: usize) -> Vec<String> {
    let random = &mut Random::new(length as u64);
    (0..count).map(|_| path(random, names, length)).collect()
}

/// Paths of about `length` bytes, with a prefix of about a third of them and a new prefix of that length.
pub fn replacements(names: Names, length: usize, count: usize) -> Vec<Replacement> {
    let random = &mut Random::new(length as u64);
    (0..count).map(|_| replacement(random, names, length)).collect()
}

/// Paths of about `length` bytes, of which about half are in brackets.
pub fn bracketed_paths(length: usize, count: usize) -> Vec<String> {
    let random = &mut Random::new(length as u64);
    (0..count).map(|_| bracketed_path(random, length)).collect()
}

/// Such paths with a prefix of about a quarter of their bytes and a new prefix of that length.
pub fn bracketed_replacements(length: usize, count: usize) -> Vec<Replacement> {
    let random = &mut Random::new(length as u64);
    let replacement = |_| {
        let [old, new] = [(); 2].map(|()| prim_path(random, Names::Mixed, length / 4));
        let rest = bracketed_path(random, length - old.len());
        Replacement { path: format!("{old}{rest}"), old, new }
    };
    (0..count).map(replacement).collect()
}

/// Such paths, with a target of the length of the one in brackets.
pub fn target_replacements(length: usize, count: usize) -> Vec<TargetReplacement> {
    let random = &mut Random::new(length as u64);
    let replacement = |_| {
        let path = bracketed_path(random, length);
        TargetReplacement { path, target: self::path(random, Names::Mixed, length / 2) }
    };
    (0..count).map(replacement).collect()
}

/// A map, and paths of about `length` bytes, of which about a third is the source of a pair.
pub fn map_input(pairs: usize, length: usize, count: usize) -> MapInput {
    let random = &mut Random::new(pairs as u64);
    let pairs: Vec<_> =
        (0..pairs).map(|_| [(); 2].map(|_| prim_path(random, Names::Mixed, length / 3))).collect();
    let paths = (0..count).map(|_| path_of_one(random, &pairs, length)).collect();
    MapInput { pairs, paths }
}

/// A route whose legs have the given number of pairs each, where the sources of a leg are the targets of the leg before, and
/// paths of about 40 bytes below the sources of the first leg.
pub fn route_input(legs: usize, pairs: usize, count: usize) -> RouteInput {
    let random = &mut Random::new(pairs as u64);
    let leg = |leg| (0..pairs).map(|pair| [signal(leg, pair), signal(leg + 1, pair)]).collect();
    let path = |_| {
        let (pair, rest) =
            (random.below(pairs), random.pick(&["/Head/Lens.color", "/Mast/Lamp_2", "/Head_1.state"]));
        format!("{}{rest}", signal(0, pair))
    };
    RouteInput { legs: (0..legs).map(leg).collect(), paths: (0..count).map(path).collect() }
}

/// Pairs of prim paths of two or three names.
pub fn list(pairs: usize, seed: usize) -> Vec<[String; 2]> {
    let random = &mut Random::new(seed as u64);
    (0..pairs).map(|_| [(); 2].map(|()| prim_path(random, Names::Mixed, 24))).collect()
}

/// Pairs whose sources are the targets of the given pairs.
pub fn list_after(pairs: &[[String; 2]]) -> Vec<[String; 2]> {
    let random = &mut Random::new(pairs.len() as u64);
    pairs.iter().map(|[_, target]| [target.clone(), prim_path(random, Names::Mixed, 24)]).collect()
}

/// Texts as the library takes them: their concatenated bytes, and the start and length of each.
pub fn packed<'a>(texts: impl IntoIterator<Item = &'a String>) -> (Vec<u8>, Vec<usize>) {
    let (mut bytes, mut places) = (Vec::new(), Vec::new());
    for text in texts {
        places.extend([bytes.len(), text.len()]);
        bytes.extend(text.as_bytes());
    }
    (bytes, places)
}

/// A text as the original takes it.
pub fn parsed(text: &str) -> Path {
    Path::new(text).expect("a legal text")
}

pub fn parsed_pairs(pairs: &[[String; 2]]) -> Vec<(Path, Path)> {
    pairs.iter().map(|[source, target]| (parsed(source), parsed(target))).collect()
}

fn path_of_one(random: &mut Random, pairs: &[[String; 2]], length: usize) -> String {
    let [source, _] = random.pick(pairs);
    let rest = path(random, Names::Mixed, length - source.len());
    format!("{source}{rest}")
}

fn replacement(random: &mut Random, names: Names, length: usize) -> Replacement {
    let old = prim_path(random, names, length / 3);
    let new = prim_path(random, names, length / 3);
    let rest = path(random, names, length - old.len());
    Replacement { path: format!("{old}{rest}"), old, new }
}

/// A path of names and some selections, one in two with a property.
fn path(random: &mut Random, names: Names, length: usize) -> String {
    let mut text = String::new();
    append_child(random, names, &mut text);
    while text.len() + 10 < length {
        if random.one_in(5) {
            let (set, variant) = (name(random, names), name(random, names.of_variants()));
            text += &format!("{{{set}={variant}}}");
        } else {
            append_child(random, names, &mut text);
        }
    }
    if random.one_in(2) {
        text += &format!(".{}", name(random, names));
    }
    text
}

/// A path of names with a property and, in brackets, a path of about half of the bytes.
fn bracketed_path(random: &mut Random, length: usize) -> String {
    let own = prim_path(random, Names::Mixed, (length / 2).saturating_sub(10));
    let property = name(random, Names::Mixed);
    format!("{own}.{property}[{}]", path(random, Names::Mixed, length / 2))
}

fn prim_path(random: &mut Random, names: Names, length: usize) -> String {
    let mut text = String::new();
    while text.is_empty() || text.len() + 4 < length {
        append_child(random, names, &mut text);
    }
    text
}

fn append_child(random: &mut Random, names: Names, text: &mut String) {
    if !text.ends_with('}') {
        text.push('/');
    }
    *text += &name(random, names);
}

/// A name of at most 4 to 12 bytes.
fn name(random: &mut Random, names: Names) -> String {
    let characters: Vec<char> = names.characters().chars().collect();
    let first: Vec<char> = characters.iter().copied().filter(|first| !first.is_ascii_digit()).collect();
    let mut name = random.pick(&first).to_string();
    let longest = random.within(4..=12);
    while name.len() < longest {
        let next = *random.pick(&characters);
        if name.len() + next.len_utf8() > longest {
            break;
        }
        name.push(next);
    }
    name
}
