//! The joins that are timed, the same in every run, and what both forms share.

use crate::options::Order;
use texts::random::Random;

/// The number of joins that are timed together.
const COUNT: usize = 4_096;

/// A path, cut after its old prefix, and the new prefix.
pub struct Join {
    pub old: &'static [u8],
    pub new: &'static [u8],
    pub rest: &'static [u8],
}

/// Prefixes and remainders that are combined at random.
pub struct Set {
    pub title: &'static str,
    /// Old prefixes, each with the remainders that may follow it.
    olds: &'static [(&'static str, &'static [&'static str])],
    news: &'static [&'static str],
}

/// Remainders after a name, after a selection, and after `/`.
const AFTER_NAME: &[&str] = &["", "/Signal_1/Head", "/Mast/Lamp.state", ".next", "{v=p}Head"];
const AFTER_SELECTION: &[&str] = &["", "Signal_1/Head", "_mast/Lamp.state", ".next", "{v=p}Head"];
const AFTER_ROOT: &[&str] = &["", "Signal_1/Head", "_mast/Lamp.state", "Town", "Line{v=p}"];
/// Remainders of ten bytes.
const TEN_AFTER_NAME: &[&str] = &["/Head/Lamp", "/mast/Lamp", ".aspect_st", "{v=p}Lamp_"];
const TEN_AFTER_SELECTION: &[&str] = &["Head/Lamps", "_mast/Lamp", ".aspect_st", "{v=p}Lamp_"];

pub const SETS: [Set; 2] = [
    // The texts have the same lengths, so that copying them takes the same branches in every join.
    Set {
        title: "one length: names and selections",
        olds: &[("/Line7/Quay", TEN_AFTER_NAME), ("/Line7{v=p}", TEN_AFTER_SELECTION)],
        news: &["/Town/Quay", "/Town{v=p}"],
    },
    Set {
        title: "every end and remainder",
        olds: &[
            ("", &["", "/Signal_1/Head", "/Mast/Lamp.state"]),
            ("/", AFTER_ROOT),
            ("/Line7/Harbour", AFTER_NAME),
            ("/A", AFTER_NAME),
            ("/Line{season=winter}", AFTER_SELECTION),
        ],
        news: &["", "/", "/Town/Trams/Line7", "/Quay", "/C{v=p}"],
    },
];

impl Set {
    /// Joins of this set: the same ones in both orders, sorted or as they were drawn.
    pub fn joins(&self, order: Order) -> Vec<Join> {
        let random = &mut Random::new(COUNT as u64);
        let mut joins: Vec<Join> = (0..COUNT).map(|_| self.join(random)).collect();
        if order == Order::Predictable {
            joins.sort_by_key(|join| (join.old, join.new, join.rest));
        }
        joins
    }

    fn join(&self, random: &mut Random) -> Join {
        let &(old, rests) = random.pick(self.olds);
        let (&new, &rest) = (random.pick(self.news), random.pick(rests));
        Join { old: old.as_bytes(), new: new.as_bytes(), rest: rest.as_bytes() }
    }
}

pub fn is_name_byte(byte: u8) -> bool {
    byte.is_ascii_uppercase()
        | byte.is_ascii_lowercase()
        | (byte == b'_')
        | (128 <= byte)
        | byte.is_ascii_digit()
}

/// Copies the text into the buffer from index `at`.
pub fn write_at(text: &[u8], at: usize, out: &mut [u8]) {
    out[at..at + text.len()].copy_from_slice(text);
}
