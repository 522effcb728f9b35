//! The items of a bank: names, numbers, handles, and the names in texts.

use crate::{Error, Refusal, error::Refused};
use std::{
    collections::HashSet,
    fmt,
    sync::atomic::{AtomicU32, Ordering},
};

/// An odd number with well mixed bits.
const MIX: u64 = 0x9e37_79b9_7f4a_7c15;
const NO_ITEM: u32 = u32::MAX;

/// A place of [`Numbers`].
#[derive(Clone, Copy, Debug)]
struct Place {
    /// The head of a name: see [`head_of`].
    head: u64,
    length: u32,
    /// The number of the item, or `NO_ITEM`.
    number: u32,
}

/// The numbers of items by their names. A look-up of a name of up to eight bytes reads one cache line.
///
/// It is an open-addressing table with at least twice as many places as items: 128 KB for the largest bank, which leaves room
/// in a processor's cache. The names are the program's own, so the hash need not resist chosen collisions.
#[derive(Debug)]
struct Numbers {
    places: Box<[Place]>,
    /// The upper bits of a hash after this shift are a place.
    shift: u32,
}

/// Returns eight bytes of a name. Names of equal length up to eight differ in these.
#[inline]
fn head_of(name: &[u8]) -> u64 {
    if let Some(first) = name.first_chunk() {
        return u64::from_le_bytes(*first);
    }
    let four = |part: &[u8; 4]| u64::from(u32::from_le_bytes(*part));
    if let (Some(first), Some(last)) = (name.first_chunk(), name.last_chunk()) {
        return four(first) | four(last) << 32;
    }
    match name {
        [] => 0,
        [first, .., last] | [first @ last] => {
            let middle = name[name.len() / 2];
            u64::from(*first) | u64::from(middle) << 8 | u64::from(*last) << 16
        }
    }
}

/// Returns the hash of a name, in its upper bits.
fn hash_of(name: &[u8], head: u64) -> u64 {
    let rest = name.get(8..).unwrap_or_default().chunks(4);
    let first = hash_of_few(name.len(), head);
    rest.fold(first, |hash, part| {
        (hash.rotate_left(23) ^ head_of(part)).wrapping_mul(MIX)
    })
}

/// Returns the hash of a name of up to eight bytes.
fn hash_of_few(length: usize, head: u64) -> u64 {
    (head ^ length as u64).wrapping_mul(MIX)
}

impl Numbers {
    fn for_items(count: usize) -> Numbers {
        let places = (2 * count).next_power_of_two().max(2);
        let empty = Place {
            head: 0,
            length: 0,
            number: NO_ITEM,
        };
        Numbers {
            places: vec![empty; places].into(),
            shift: u64::BITS - places.trailing_zeros(),
        }
    }

    /// Returns the place of a name, or the empty place where it belongs, and the number there.
    #[inline(always)]
    fn find(&self, name: &str, names: &[String]) -> (usize, u32) {
        let bytes = name.as_bytes();
        let head = head_of(bytes);
        if bytes.len() <= 8 {
            let hash = hash_of_few(bytes.len(), head);
            return self.probe(hash, head, bytes.len(), |_| true);
        }
        self.find_long(name, names)
    }

    #[inline(never)]
    fn find_long(&self, name: &str, names: &[String]) -> (usize, u32) {
        let bytes = name.as_bytes();
        let head = head_of(bytes);
        let is_same = |number| names[number as usize] == name;
        self.probe(hash_of(bytes, head), head, bytes.len(), is_same)
    }

    /// Returns the first place from that of a hash on which is empty, or has a name with this head and length that `is_same`.
    #[inline(always)]
    fn probe(
        &self,
        hash: u64,
        head: u64,
        length: usize,
        is_same: impl Fn(u32) -> bool,
    ) -> (usize, u32) {
        let mut at = (hash >> self.shift) as usize;
        loop {
            let place = &self.places[at];
            let has_head = place.head == head && place.length as usize == length;
            if place.number == NO_ITEM || (has_head && is_same(place.number)) {
                return (at, place.number);
            }
            at = (at + 1) & (self.places.len() - 1);
        }
    }

    #[inline(always)]
    fn get(&self, name: &str, names: &[String]) -> Option<u32> {
        let (_, number) = self.find(name, names);
        (number != NO_ITEM).then_some(number)
    }

    /// Adds a name. Returns false if it is there already.
    fn insert(&mut self, number: u32, names: &[String]) -> bool {
        let name = &names[number as usize];
        let (at, found) = self.find(name, names);
        if found != NO_ITEM {
            return false;
        }
        self.places[at] = Place {
            head: head_of(name.as_bytes()),
            length: name.len() as u32,
            number,
        };
        true
    }
}

/// The items of one bank.
///
/// ```
/// let bank = esr::Bank::builder().item("checking", 500).open()?;
/// assert!(bank.item("checking").is_ok());
/// # Ok::<(), esr::Error>(())
/// ```
#[derive(Debug)]
pub struct Items {
    /// Distinguishes banks, so that a handle of another bank is not mistaken.
    bank: u32,
    numbers: Numbers,
    names: Vec<String>,
    /// The names in texts, one on each line.
    texts: String,
}

/// Reports whether a script may use it as a name.
pub(super) fn is_name(name: &str) -> bool {
    let starts = name.starts_with(|letter: char| letter.is_ascii_alphabetic());
    starts && name.len() <= 16 && name.bytes().all(|b| b.is_ascii_alphanumeric() || b == b'_')
}

/// Returns the names in texts: an item that no script can name is called `iN` by its number N, or `iN_`, `iN__`, ..  if
/// another item has that name.
fn names_in_texts(names: &[String]) -> String {
    let taken: HashSet<&str> = names.iter().map(String::as_str).collect();
    let shown = names.iter().enumerate().map(|(number, name)| {
        if is_name(name) {
            return name.clone();
        }
        let mut shown = format!("i{number}");
        while taken.contains(shown.as_str()) {
            shown.push('_');
        }
        shown
    });
    shown.collect::<Vec<_>>().join("\n")
}

impl Items {
    pub(super) fn new(names: Vec<String>) -> Result<Items, Error> {
        static BANKS: AtomicU32 = AtomicU32::new(0);
        let mut numbers = Numbers::for_items(names.len());
        for (number, name) in names.iter().enumerate() {
            if !numbers.insert(number as u32, &names) {
                return Err(Error::NameTwice { name: name.clone() });
            }
        }
        Ok(Items {
            bank: BANKS.fetch_add(1, Ordering::Relaxed),
            numbers,
            texts: names_in_texts(&names),
            names,
        })
    }

    pub(super) fn bank(&self) -> u32 {
        self.bank
    }

    pub(super) fn len(&self) -> usize {
        self.names.len()
    }

    pub(super) fn name(&self, item: u32) -> &str {
        self.names.get(item as usize).map_or("?", String::as_str)
    }

    pub(super) fn names(&self) -> impl Iterator<Item = &str> {
        self.names.iter().map(String::as_str)
    }

    #[inline(always)]
    fn number(&self, name: &str) -> Option<u32> {
        self.numbers.get(name, &self.names)
    }

    /// Returns the names in texts, one on each line.
    pub(super) fn texts(&self) -> &str {
        &self.texts
    }
}

/// An item of one bank, which is read and written without a look-up of its name.
///
/// ```
/// let bank = esr::Bank::builder().item("checking", 500).open()?;
/// let checking = bank.item("checking")?;
/// assert_eq!(bank.transact(0, |update| update.add(checking, -100))?, 400);
/// # Ok::<(), esr::Error>(())
/// ```
#[derive(Clone, Copy, PartialEq, Eq, Hash, Debug)]
pub struct Item {
    pub(super) bank: u32,
    pub(super) number: u32,
}

mod sealed {
    pub trait Sealed {}
    impl<T: AsRef<str> + ?Sized> Sealed for &T {}
    impl Sealed for super::Item {}
}

#[cold]
fn no_such_item(name: &str) -> Error {
    Refused::of(Refusal::NoSuchItem).item(name).into()
}

/// What names an item: its name, or an [`Item`].
pub trait ItemKey: sealed::Sealed {
    #[doc(hidden)]
    fn number(&self, items: &Items) -> Result<u32, Error>;
    #[doc(hidden)]
    fn label(&self, items: &Items) -> String;
}

impl<T: AsRef<str> + ?Sized> ItemKey for &T {
    #[inline(always)]
    fn number(&self, items: &Items) -> Result<u32, Error> {
        let name = self.as_ref();
        items.number(name).ok_or_else(|| no_such_item(name))
    }

    fn label(&self, _: &Items) -> String {
        self.as_ref().to_owned()
    }
}

impl ItemKey for Item {
    #[inline]
    fn number(&self, items: &Items) -> Result<u32, Error> {
        if self.bank == items.bank {
            return Ok(self.number);
        }
        let other = format!("{} (of another bank)", self.number);
        Err(no_such_item(&other))
    }

    fn label(&self, items: &Items) -> String {
        items.name(self.number).to_owned()
    }
}

/// Replaces each transaction `t5` of a text by `NAME_5`, if `name` returns a name for transaction 5.
pub(super) fn with_names<'a>(
    text: String,
    items: &Items,
    name: impl Fn(u32) -> Option<&'a str>,
) -> String {
    let is_txn = |word: &str| {
        let digits = word.strip_prefix('t');
        digits
            .is_some_and(|digits| !digits.is_empty() && digits.bytes().all(|b| b.is_ascii_digit()))
    };
    // (an item may be called t5 as well)
    if items.names().any(is_txn) {
        return text;
    }
    let mut named = String::with_capacity(text.len());
    for part in text.split_inclusive([' ', ',', '\n']) {
        let word = part.trim_end_matches([' ', ',', '\n']);
        let found = is_txn(word)
            .then(|| word[1..].parse().ok().and_then(&name))
            .flatten();
        let found = found.map(|name| format!("{name}_{}", &word[1..]));
        match found.filter(|name| is_name(name)) {
            Some(name) => {
                named.push_str(&name);
                named.push_str(&part[word.len()..]);
            }
            None => named.push_str(part),
        }
    }
    named
}

impl fmt::Display for Item {
    fn fmt(&self, f: &mut fmt::Formatter<'_>) -> fmt::Result {
        self.number.fmt(f)
    }
}

#[cfg(test)]
mod tests {
    use super::*;

    /// Each name of a length from 0 to 20 is found, and no name that differs from all of them in one byte.
    #[test]
    fn names_are_found() {
        let name = |length: usize, changed: usize| {
            let byte = |at: usize| {
                if at + 1 == changed {
                    '#'
                } else {
                    (b'a' + at as u8) as char
                }
            };
            (0..length).map(byte).collect::<String>()
        };
        let mut names: Vec<String> = (0..=20).map(|length| name(length, 0)).collect();
        names.extend((0..4_000).map(|n| format!("i{n}")));
        let items = Items::new(names.clone()).expect("all names differ");
        for (number, name) in names.iter().enumerate() {
            assert_eq!(name.as_str().number(&items), Ok(number as u32));
        }
        for length in 1..=20 {
            for changed in 1..=length {
                assert!(name(length, changed).as_str().number(&items).is_err());
            }
        }
        assert!("i4000".number(&items).is_err());
    }

    /// A name differs from one with the same first bytes, and from one with the same head, in a table of few places.
    #[test]
    fn similar_names_differ() {
        let has = |name: &str, other: &str| {
            let items = Items::new(vec![name.to_owned()]).expect("one name");
            assert_eq!(name.number(&items), Ok(0));
            other.number(&items).is_ok()
        };
        for letter in 'a'..='z' {
            assert!(!has("savings of #", &format!("savings of {letter}")));
            assert!(!has("savings of #", &format!("savings of {letter}#")));
            let once = letter.to_string();
            assert!(!has(&once, &once.repeat(3)) && !has(&once.repeat(3), &once));
        }
    }

    /// One name that no script has leaves the others as they are, and is replaced by one that no other item has.
    #[test]
    fn one_bad_name_is_replaced_alone() {
        let names = ["checking", "my savings", "i1", "7up"];
        let items = Items::new(names.map(String::from).to_vec()).expect("four names");
        assert_eq!(items.texts(), "checking\ni1_\ni1\ni3");
        let twice = Items::new(vec!["a".into(), "a".into()]).unwrap_err();
        assert_eq!(twice, Error::NameTwice { name: "a".into() });
    }

    /// Names of transactions replace their numbers in texts, unless an item could be confused with one.
    #[test]
    fn transactions_have_names_in_texts() {
        let items = Items::new(vec!["a".into()]).expect("one name");
        let name = |txn| (txn == 2).then_some("fee");
        let text = "begin t2 update 0\nbefore t1,t2,t22\n2,t2,update\n".to_owned();
        assert_eq!(
            with_names(text.clone(), &items, name),
            "begin fee_2 update 0\nbefore t1,fee_2,t22\n2,fee_2,update\n"
        );
        let long = |_| Some("a_very_long_name");
        assert_eq!(with_names(text.clone(), &items, long), text);
        let items = Items::new(vec!["t2".into()]).expect("one name");
        assert_eq!(with_names(text.clone(), &items, name), text);
    }
}
