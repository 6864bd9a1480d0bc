//! The nests by their names in `sw_examples`.

use crate::adapters::{Aside, AtMostOne, Choice, From, Holds, Pairs, PreferMany, PreferOne, Same, Shown, To};
use serde::{de::DeserializeOwned, Serialize};
use serde_json::Value;
use std::cmp::Reverse;
use std::collections::{BTreeMap, BTreeSet, LinkedList, VecDeque};
use std::num::NonZeroU8;
use std::ops::{Bound, Range, RangeFrom, RangeInclusive, RangeTo};

/// The text that `S` writes for what `R` reads; none where either refuses.
fn apart<R: Holds<T> + DeserializeOwned, S: Holds<T> + Serialize, T>(text: &str) -> Option<String> {
    let read: R = serde_json::from_str(text).ok()?;
    serde_json::to_string(&S::of(read.value())).ok()
}

fn again<A: Holds<T> + DeserializeOwned + Serialize, T>(text: &str) -> Option<String> {
    apart::<A, A, T>(text)
}

/// The same, with the values put into a set on the way.
fn as_set<A: Holds<Vec<T>> + DeserializeOwned + Serialize, T: Ord>(text: &str) -> Option<String> {
    let read: A = serde_json::from_str(text).ok()?;
    let set: BTreeSet<T> = read.value().into_iter().collect();
    serde_json::to_string(&A::of(set.into_iter().collect())).ok()
}

/// A map as the list of its entries.
fn as_list<A: Holds<K> + Ord + DeserializeOwned + Serialize, B: Holds<V> + DeserializeOwned + Serialize, K: Ord, V>(
    text: &str,
) -> Option<String> {
    let read: Vec<(A, B)> = serde_json::from_str(text).ok()?;
    let map: BTreeMap<K, V> = read.value().into_iter().collect();
    serde_json::to_string(&Vec::<(A, B)>::of(map.into_iter().collect())).ok()
}

/// As many entries as that.
fn as_many<A: Holds<Vec<T>> + DeserializeOwned + Serialize, T>(count: usize, text: &str) -> Option<String> {
    let read: A = serde_json::from_str(text).ok()?;
    let values = read.value();
    if values.len() != count {
        return None;
    }
    serde_json::to_string(&A::of(values)).ok()
}

type One = PreferOne<Vec<Same<u8>>>;
type Many = Vec<Vec<Same<u8>>>;
type Lists = Vec<Vec<u8>>;
type Number = Same<u64>;
type Text = Shown<u64>;
type EightSame = (Same<u8>, Same<u8>, Same<u8>, Same<u8>, Same<u8>, Same<u8>, Same<u8>, Same<u8>);
type EightBytes = (u8, u8, u8, u8, u8, u8, u8, u8);
type Flags = Pairs<Same<u32>, Same<bool>>;
type ByChoice = Pairs<Choice<Same<u32>, Same<u32>>, Same<bool>>;
type ByList = Pairs<Vec<Same<u32>>, Same<u32>>;
type ByOneOrMany = Pairs<PreferMany<Shown<u32>>, Same<u32>>;

/// A record of a user's own.
#[derive(serde::Serialize, serde::Deserialize)]
struct Person {
    name: Same<String>,
    age: Same<u8>,
    #[serde(default)]
    tags: Vec<Shown<u32>>,
}

impl Holds<Person> for Person {
    fn of(value: Person) -> Self {
        value
    }
    fn value(self) -> Person {
        self
    }
}

/// A key of a user's own, of which the greater comes first.
type Priority = Reverse<u8>;

pub fn answer(nest: &str, text: &str) -> Option<String> {
    match nest {
        "Same of u8" => again::<Same<u8>, u8>(text),
        "Same of Any" => again::<Same<Value>, Value>(text),
        "DisplayFromStr of u32" => again::<Shown<u32>, u32>(text),
        "Vec<Same> of Vec<u8>" => again::<Vec<Same<u8>>, Vec<u8>>(text),
        "Vec<DisplayFromStr> of Vec<u32>" => again::<Vec<Shown<u32>>, Vec<u32>>(text),
        "VecDeque<DisplayFromStr> of VecDeque<u32>" => again::<VecDeque<Shown<u32>>, VecDeque<u32>>(text),
        "LinkedList<DisplayFromStr> of LinkedList<u32>" => again::<LinkedList<Shown<u32>>, LinkedList<u32>>(text),
        "Box<[DisplayFromStr]> of Box<[u32]>" => again::<Box<[Shown<u32>]>, Box<[u32]>>(text),
        "BTreeSet<DisplayFromStr> of BTreeSet<u32>" => again::<BTreeSet<Shown<u32>>, BTreeSet<u32>>(text),
        "Option<DisplayFromStr> of Option<u32>" => again::<Option<Shown<u32>>, Option<u32>>(text),
        "Option<Option<Same>> of Option<Option<u8>>" => {
            again::<Option<Option<Same<u8>>>, Option<Option<u8>>>(text)
        }
        "Vec<Option<Same>> of Vec<Option<u8>>" => again::<Vec<Option<Same<u8>>>, Vec<Option<u8>>>(text),
        "Box<DisplayFromStr> of Box<u32>" => again::<Box<Shown<u32>>, Box<u32>>(text),
        "Box<Vec<DisplayFromStr>> of Box<Vec<u32>>" => again::<Box<Vec<Shown<u32>>>, Box<Vec<u32>>>(text),
        "BTreeMap<Same, DisplayFromStr> of BTreeMap<String, u32>" => {
            again::<BTreeMap<Same<String>, Shown<u32>>, BTreeMap<String, u32>>(text)
        }
        "BTreeMap<Same, Same> of BTreeMap<u32, bool>" => {
            again::<BTreeMap<Same<u32>, Same<bool>>, BTreeMap<u32, bool>>(text)
        }
        "Map<Same, Same> of Vec<(u32, bool)>" => again::<Flags, Vec<(u32, bool)>>(text),
        "Map<Same, Same> of Vec<(u32, bool)>, set aside" => again::<Aside<Flags>, Vec<(u32, bool)>>(text),
        "Map<Same, Vec<Same>> of Vec<(i64, Vec<u8>)>" => {
            again::<Pairs<Same<i64>, Vec<Same<u8>>>, Vec<(i64, Vec<u8>)>>(text)
        }
        "Map<Vec<Same>, Same> of Vec<(Vec<u32>, u32)>" => {
            again::<ByList, Vec<(Vec<u32>, u32)>>(text)
        }
        "Map<PickFirst<(Same,)>, Same> of Vec<(u32, bool)>" => again::<Flags, Vec<(u32, bool)>>(text),
        "Map<PickFirst<(Same, Same)>, Same> of Vec<(u32, bool)>" => {
            again::<ByChoice, Vec<(u32, bool)>>(text)
        }
        "Map<Same, Same>, written by Map<PickFirst<(Same, Same)>, Same>, of Vec<(u32, bool)>" => {
            apart::<Flags, ByChoice, Vec<(u32, bool)>>(text)
        }
        "Map<PickFirst<(DisplayFromStr, DisplayFromStr)>, Same> of Vec<(u32, bool)>" => {
            again::<Pairs<Choice<Shown<u32>, Shown<u32>>, Same<bool>>, Vec<(u32, bool)>>(text)
        }
        "Map<OneOrMany<DisplayFromStr, PreferMany>, Same> of Vec<(Vec<u32>, u32)>" => {
            again::<ByOneOrMany, Vec<(Vec<u32>, u32)>>(text)
        }
        "Map<OneOrMany<DisplayFromStr, PreferMany>, Same>, written by Map<Vec<Same>, Same>, of Vec<(Vec<u32>, u32)>" => {
            apart::<ByOneOrMany, ByList, Vec<(Vec<u32>, u32)>>(text)
        }
        "Map<Box<Vec<DisplayFromStr>>, Same> of Vec<(Box<Vec<u32>>, bool)>" => {
            again::<Pairs<Box<Vec<Shown<u32>>>, Same<bool>>, Vec<(Box<Vec<u32>>, bool)>>(text)
        }
        "Map<BTreeMap<Same, Same>, Same> of Vec<(BTreeMap<u32, bool>, bool)>" => {
            again::<Pairs<BTreeMap<Same<u32>, Same<bool>>, Same<bool>>, Vec<(BTreeMap<u32, bool>, bool)>>(text)
        }
        "PickFirst<(DisplayFromStr,)> of u64" => again::<Text, u64>(text),
        "PickFirst<(DisplayFromStr, Same)> of u64" => again::<Choice<Text, Number>, u64>(text),
        "PickFirst<(Same, DisplayFromStr)> of u64" => again::<Choice<Number, Text>, u64>(text),
        "PickFirst<(DisplayFromStr, Same, Same)> of u64" => {
            again::<Choice<Text, Choice<Number, Number>>, u64>(text)
        }
        "PickFirst<(Same, Same, DisplayFromStr)> of u64" => {
            again::<Choice<Number, Choice<Number, Text>>, u64>(text)
        }
        "PickFirst<(DisplayFromStr, Same, Same, Same)> of u64" => {
            again::<Choice<Text, Choice<Number, Choice<Number, Number>>>, u64>(text)
        }
        "PickFirst<(Same, Same, Same, DisplayFromStr)> of u64" => {
            again::<Choice<Number, Choice<Number, Choice<Number, Text>>>, u64>(text)
        }
        "PickFirst<(Same, DisplayFromStr, Same, DisplayFromStr)> of u64" => {
            again::<Choice<Number, Choice<Text, Choice<Number, Text>>>, u64>(text)
        }
        "Vec<PickFirst<(Same, DisplayFromStr)>> of Vec<u64>" => again::<Vec<Choice<Number, Text>>, Vec<u64>>(text),
        "Vec<PickFirst<(DisplayFromStr, Same)>> of Vec<u64>" => again::<Vec<Choice<Text, Number>>, Vec<u64>>(text),
        "OneOrMany<Same, PreferOne> of Vec<String>" => again::<PreferOne<Same<String>>, Vec<String>>(text),
        "OneOrMany<Same, PreferMany> of Vec<String>" => again::<PreferMany<Same<String>>, Vec<String>>(text),
        "OneOrMany<DisplayFromStr, PreferOne> of Vec<u64>" => again::<PreferOne<Text>, Vec<u64>>(text),
        "OneOrMany<Vec<Same>, PreferOne> of Vec<Vec<u8>>" => again::<One, Lists>(text),
        "OneOrMany<Vec<Same>, PreferOne>, written by Vec<Vec<Same>>, of Vec<Vec<u8>>" => {
            apart::<One, Many, Lists>(text)
        }
        "Vec<Vec<Same>>, written by OneOrMany<Vec<Same>, PreferOne>, of Vec<Vec<u8>>" => {
            apart::<Many, One, Lists>(text)
        }
        "PickFirst<(OneOrMany<Vec<Same>, PreferOne>, Vec<Vec<Same>>)>, written by Vec<Vec<Same>>, of Vec<Vec<u8>>" => {
            apart::<Choice<One, Many>, Many, Lists>(text)
        }
        "PickFirst<(Vec<Vec<Same>>, OneOrMany<Vec<Same>, PreferOne>)>, written by Vec<Vec<Same>>, of Vec<Vec<u8>>" => {
            apart::<Choice<Many, One>, Many, Lists>(text)
        }
        "PersonAs<Same, Same, Vec<DisplayFromStr>> of Person" => again::<Person, Person>(text),
        "(Same,) of (u8,)" => again::<(Same<u8>,), (u8,)>(text),
        "(Same, DisplayFromStr) of (u8, u32)" => again::<(Same<u8>, Shown<u32>), (u8, u32)>(text),
        "(Same, DisplayFromStr, Same) of (u8, u32, bool)" => {
            again::<(Same<u8>, Shown<u32>, Same<bool>), (u8, u32, bool)>(text)
        }
        "eight of Same of eight bytes" => again::<EightSame, EightBytes>(text),
        "[Same; 3] of [u32; 3]" => again::<[Same<u32>; 3], [u32; 3]>(text),
        "Option<(Same, Same)> of Option<(u32, u32)>" => {
            again::<Option<(Same<u32>, Same<u32>)>, Option<(u32, u32)>>(text)
        }
        "Result<Same, DisplayFromStr> of Result<u8, u32>" => {
            again::<Result<Same<u8>, Shown<u32>>, Result<u8, u32>>(text)
        }
        "Bound<DisplayFromStr> of Bound<u32>" => again::<Bound<Shown<u32>>, Bound<u32>>(text),
        "Same of NonZeroU8" => again::<Same<NonZeroU8>, NonZeroU8>(text),
        // Written in the order of the keys or items, as a hashed map or set of ours is.
        "HashMap<Same, Same> of HashMap<u32, u32>" => {
            again::<BTreeMap<Same<u32>, Same<u32>>, BTreeMap<u32, u32>>(text)
        }
        "HashSet<DisplayFromStr> of HashSet<u32>" => again::<BTreeSet<Shown<u32>>, BTreeSet<u32>>(text),
        "BTreeMap<Same, Same> of Vec<(u32, u32)>" | "HashMap<Same, Same> of Vec<(u32, u32)>" => {
            again::<Pairs<Same<u32>, Same<u32>>, Vec<(u32, u32)>>(text)
        }
        "BTreeMap<Same, Same> of Option<(u32, u32)>" | "HashMap<Same, Same> of Option<(u32, u32)>" => {
            again::<AtMostOne<Same<u32>, Same<u32>>, Option<(u32, u32)>>(text)
        }
        "Range<DisplayFromStr> of Range<u32>" => again::<Range<Shown<u32>>, Range<u32>>(text),
        "RangeInclusive<DisplayFromStr> of RangeInclusive<u32>" => {
            again::<RangeInclusive<Shown<u32>>, RangeInclusive<u32>>(text)
        }
        "RangeFrom<Same> of RangeFrom<u8>" => again::<From<Same<u8>>, RangeFrom<u8>>(text),
        "RangeTo<Same> of RangeTo<u8>" => again::<To<Same<u8>>, RangeTo<u8>>(text),
        "Map<Same, Same> of VecDeque<(u32, bool)>" | "Map<Same, Same> of Box<[(u32, bool)]>" => {
            again::<Flags, Vec<(u32, bool)>>(text)
        }
        "Map<Same, DisplayFromStr> of LinkedList<(u32, u32)>" => {
            again::<Pairs<Same<u32>, Shown<u32>>, Vec<(u32, u32)>>(text)
        }
        "Map<Same, Same> of [(u32, bool); 2]" => as_many::<Flags, (u32, bool)>(2, text),
        "Map<Same, Same> of BTreeSet<(u32, bool)>" => as_set::<Flags, (u32, bool)>(text),
        "Map<Same, DisplayFromStr> of HashSet<(u32, u32)>" => {
            as_set::<Pairs<Same<u32>, Shown<u32>>, (u32, u32)>(text)
        }
        "Vec<(Same, DisplayFromStr)> of BTreeMap<u32, u32>" => as_list::<Same<u32>, Shown<u32>, u32, u32>(text),
        "Vec<(DisplayFromStr, Same)> of HashMap<u32, bool>" => as_list::<Shown<u32>, Same<bool>, u32, bool>(text),
        "Seq<(Vec<Same>, Same)> of BTreeMap<Vec<u8>, bool>" => {
            as_list::<Vec<Same<u8>>, Same<bool>, Vec<u8>, bool>(text)
        }
        "Seq<(Same, Same)> of HashMap<u32, u32>" => as_list::<Same<u32>, Same<u32>, u32, u32>(text),
        "OneOrMany<DisplayFromStr, PreferOne> of VecDeque<u32>" => again::<PreferOne<Shown<u32>>, Vec<u32>>(text),
        "OneOrMany<DisplayFromStr, PreferMany> of LinkedList<u32>" => {
            again::<PreferMany<Shown<u32>>, Vec<u32>>(text)
        }
        "OneOrMany<Same, PreferOne> of Box<[u32]>" => again::<PreferOne<Same<u32>>, Vec<u32>>(text),
        "OneOrMany<DisplayFromStr, PreferOne> of BTreeSet<u32>" => as_set::<PreferOne<Shown<u32>>, u32>(text),
        "OneOrMany<Same, PreferMany> of HashSet<u32>" => as_set::<PreferMany<Same<u32>>, u32>(text),
        "OneOrMany<Vec<Same>, PreferMany> of BTreeSet<Vec<u8>>" => as_set::<PreferMany<Vec<Same<u8>>>, Vec<u8>>(text),
        "Same of Priority" => again::<Same<Priority>, Priority>(text),
        "BTreeMap<Same, Same> of BTreeMap<Priority, u32>" => {
            again::<BTreeMap<Same<Priority>, Same<u32>>, BTreeMap<Priority, u32>>(text)
        }
        "BTreeSet<Same> of BTreeSet<Priority>" => again::<BTreeSet<Same<Priority>>, BTreeSet<Priority>>(text),
        _ => panic!("no nest {nest}"),
    }
}
