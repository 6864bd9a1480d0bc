//! Adapters as types that hold a value, each read and written by serde.

use serde::de::{Deserialize, Deserializer, Error, MapAccess, Visitor};
use serde::ser::{Serialize, Serializer};
use std::collections::{BTreeMap, BTreeSet, LinkedList, VecDeque};
use std::fmt::{self, Display};
use std::marker::PhantomData;
use std::ops::{Bound, Range, RangeFrom, RangeInclusive, RangeTo};
use std::str::FromStr;

/// What holds a value of `T`, and may be made of one.
pub trait Holds<T> {
    fn of(value: T) -> Self;
    fn value(self) -> T;
}

/// A value as it stands.
#[derive(serde::Serialize, serde::Deserialize, PartialEq, Eq, PartialOrd, Ord)]
#[serde(transparent)]
pub struct Same<T>(T);

impl<T> Holds<T> for Same<T> {
    fn of(value: T) -> Self {
        Same(value)
    }
    fn value(self) -> T {
        self.0
    }
}

/// A value by its text.
#[derive(PartialEq, Eq, PartialOrd, Ord)]
pub struct Shown<T>(T);

impl<T> Holds<T> for Shown<T> {
    fn of(value: T) -> Self {
        Shown(value)
    }
    fn value(self) -> T {
        self.0
    }
}

impl<T: Display> Serialize for Shown<T> {
    fn serialize<S: Serializer>(&self, serializer: S) -> Result<S::Ok, S::Error> {
        serializer.collect_str(&self.0)
    }
}

impl<'de, T: FromStr> Deserialize<'de> for Shown<T> {
    fn deserialize<D: Deserializer<'de>>(deserializer: D) -> Result<Self, D::Error> {
        let text = String::deserialize(deserializer)?;
        text.parse().map(Shown).map_err(|_| D::Error::custom("no such text"))
    }
}

impl<T, A: Holds<T>> Holds<Vec<T>> for Vec<A> {
    fn of(value: Vec<T>) -> Self {
        value.into_iter().map(A::of).collect()
    }
    fn value(self) -> Vec<T> {
        self.into_iter().map(A::value).collect()
    }
}

impl<T, A: Holds<T>> Holds<VecDeque<T>> for VecDeque<A> {
    fn of(value: VecDeque<T>) -> Self {
        value.into_iter().map(A::of).collect()
    }
    fn value(self) -> VecDeque<T> {
        self.into_iter().map(A::value).collect()
    }
}

impl<T, A: Holds<T>> Holds<LinkedList<T>> for LinkedList<A> {
    fn of(value: LinkedList<T>) -> Self {
        value.into_iter().map(A::of).collect()
    }
    fn value(self) -> LinkedList<T> {
        self.into_iter().map(A::value).collect()
    }
}

impl<T, A: Holds<T>> Holds<Box<[T]>> for Box<[A]> {
    fn of(value: Box<[T]>) -> Self {
        value.into_vec().into_iter().map(A::of).collect()
    }
    fn value(self) -> Box<[T]> {
        self.into_vec().into_iter().map(A::value).collect()
    }
}

impl<T: Ord, A: Holds<T> + Ord> Holds<BTreeSet<T>> for BTreeSet<A> {
    fn of(value: BTreeSet<T>) -> Self {
        value.into_iter().map(A::of).collect()
    }
    fn value(self) -> BTreeSet<T> {
        self.into_iter().map(A::value).collect()
    }
}

impl<T, A: Holds<T>> Holds<Option<T>> for Option<A> {
    fn of(value: Option<T>) -> Self {
        value.map(A::of)
    }
    fn value(self) -> Option<T> {
        self.map(A::value)
    }
}

impl<T, A: Holds<T>> Holds<Box<T>> for Box<A> {
    fn of(value: Box<T>) -> Self {
        Box::new(A::of(*value))
    }
    fn value(self) -> Box<T> {
        Box::new((*self).value())
    }
}

impl<K: Ord, V, A: Holds<K> + Ord, B: Holds<V>> Holds<BTreeMap<K, V>> for BTreeMap<A, B> {
    fn of(value: BTreeMap<K, V>) -> Self {
        value.into_iter().map(|(key, value)| (A::of(key), B::of(value))).collect()
    }
    fn value(self) -> BTreeMap<K, V> {
        self.into_iter().map(|(key, value)| (key.value(), value.value())).collect()
    }
}

macro_rules! tuples {
    ($(($($a:ident $t:ident $i:tt),+))*) => {$(
        impl<$($t, $a: Holds<$t>),+> Holds<($($t,)+)> for ($($a,)+) {
            fn of(value: ($($t,)+)) -> Self {
                ($($a::of(value.$i),)+)
            }
            fn value(self) -> ($($t,)+) {
                ($(self.$i.value(),)+)
            }
        }
    )*};
}

tuples! {
    (A T 0)
    (A T 0, B U 1)
    (A T 0, B U 1, C V 2)
    (A T 0, B U 1, C V 2, D W 3, E X 4, F Y 5, G Z 6, H Q 7)
}

impl<T, E, A: Holds<T>, B: Holds<E>> Holds<Result<T, E>> for Result<A, B> {
    fn of(value: Result<T, E>) -> Self {
        value.map(A::of).map_err(B::of)
    }
    fn value(self) -> Result<T, E> {
        self.map(A::value).map_err(B::value)
    }
}

impl<T, A: Holds<T>> Holds<Bound<T>> for Bound<A> {
    fn of(value: Bound<T>) -> Self {
        value.map(A::of)
    }
    fn value(self) -> Bound<T> {
        self.map(A::value)
    }
}

impl<T, A: Holds<T>, const N: usize> Holds<[T; N]> for [A; N] {
    fn of(value: [T; N]) -> Self {
        value.map(A::of)
    }
    fn value(self) -> [T; N] {
        self.map(A::value)
    }
}

impl<T, A: Holds<T>> Holds<Range<T>> for Range<A> {
    fn of(value: Range<T>) -> Self {
        A::of(value.start)..A::of(value.end)
    }
    fn value(self) -> Range<T> {
        self.start.value()..self.end.value()
    }
}

impl<T, A: Holds<T>> Holds<RangeInclusive<T>> for RangeInclusive<A> {
    fn of(value: RangeInclusive<T>) -> Self {
        let (start, end) = value.into_inner();
        A::of(start)..=A::of(end)
    }
    fn value(self) -> RangeInclusive<T> {
        let (start, end) = self.into_inner();
        start.value()..=end.value()
    }
}

/// A range with a start alone. The serde of Debian reads none of std's.
#[derive(serde::Serialize, serde::Deserialize)]
#[serde(deny_unknown_fields)]
pub struct From<A> {
    start: A,
}

impl<T, A: Holds<T>> Holds<RangeFrom<T>> for From<A> {
    fn of(value: RangeFrom<T>) -> Self {
        From { start: A::of(value.start) }
    }
    fn value(self) -> RangeFrom<T> {
        self.start.value()..
    }
}

/// A range with an end alone.
#[derive(serde::Serialize, serde::Deserialize)]
#[serde(deny_unknown_fields)]
pub struct To<A> {
    end: A,
}

impl<T, A: Holds<T>> Holds<RangeTo<T>> for To<A> {
    fn of(value: RangeTo<T>) -> Self {
        To { end: A::of(value.end) }
    }
    fn value(self) -> RangeTo<T> {
        ..self.end.value()
    }
}

/// At most one pair as a map.
pub struct AtMostOne<A, B>(Option<(A, B)>);

impl<K, V, A: Holds<K>, B: Holds<V>> Holds<Option<(K, V)>> for AtMostOne<A, B> {
    fn of(value: Option<(K, V)>) -> Self {
        AtMostOne(value.map(|(key, value)| (A::of(key), B::of(value))))
    }
    fn value(self) -> Option<(K, V)> {
        self.0.map(|(key, value)| (key.value(), value.value()))
    }
}

impl<A: Serialize, B: Serialize> Serialize for AtMostOne<A, B> {
    fn serialize<S: Serializer>(&self, serializer: S) -> Result<S::Ok, S::Error> {
        serializer.collect_map(self.0.iter().map(|(key, value)| (key, value)))
    }
}

impl<'de, A: Deserialize<'de>, B: Deserialize<'de>> Deserialize<'de> for AtMostOne<A, B> {
    fn deserialize<D: Deserializer<'de>>(deserializer: D) -> Result<Self, D::Error> {
        let mut pairs = Pairs::<A, B>::deserialize(deserializer)?.0;
        match pairs.len() {
            0 | 1 => Ok(AtMostOne(pairs.pop())),
            _ => Err(D::Error::custom("more than one entry")),
        }
    }
}

/// A list of pairs as a map.
pub struct Pairs<A, B>(Vec<(A, B)>);

impl<K, V, A: Holds<K>, B: Holds<V>> Holds<Vec<(K, V)>> for Pairs<A, B> {
    fn of(value: Vec<(K, V)>) -> Self {
        Pairs(value.into_iter().map(|(key, value)| (A::of(key), B::of(value))).collect())
    }
    fn value(self) -> Vec<(K, V)> {
        self.0.into_iter().map(|(key, value)| (key.value(), value.value())).collect()
    }
}

impl<A: Serialize, B: Serialize> Serialize for Pairs<A, B> {
    fn serialize<S: Serializer>(&self, serializer: S) -> Result<S::Ok, S::Error> {
        serializer.collect_map(self.0.iter().map(|(key, value)| (key, value)))
    }
}

struct Entries<A, B>(PhantomData<(A, B)>);

impl<'de, A: Deserialize<'de>, B: Deserialize<'de>> Visitor<'de> for Entries<A, B> {
    type Value = Pairs<A, B>;

    fn expecting(&self, formatter: &mut fmt::Formatter) -> fmt::Result {
        formatter.write_str("a map")
    }

    fn visit_map<M: MapAccess<'de>>(self, mut map: M) -> Result<Self::Value, M::Error> {
        let mut pairs = Vec::new();
        while let Some(pair) = map.next_entry()? {
            pairs.push(pair);
        }
        Ok(Pairs(pairs))
    }
}

impl<'de, A: Deserialize<'de>, B: Deserialize<'de>> Deserialize<'de> for Pairs<A, B> {
    fn deserialize<D: Deserializer<'de>>(deserializer: D) -> Result<Self, D::Error> {
        deserializer.deserialize_map(Entries(PhantomData))
    }
}

/// What serde set aside before it is read.
#[derive(serde::Serialize, serde::Deserialize)]
#[serde(untagged)]
pub enum Aside<A> {
    Only(A),
}

impl<T, A: Holds<T>> Holds<T> for Aside<A> {
    fn of(value: T) -> Self {
        Aside::Only(A::of(value))
    }
    fn value(self) -> T {
        match self {
            Aside::Only(only) => only.value(),
        }
    }
}

/// The first option that reads; of what is written, the first. More options are a choice of choices.
#[derive(serde::Serialize, serde::Deserialize, PartialEq, Eq, PartialOrd, Ord)]
#[serde(untagged)]
pub enum Choice<A, B> {
    First(A),
    Other(B),
}

impl<T, A: Holds<T>, B: Holds<T>> Holds<T> for Choice<A, B> {
    fn of(value: T) -> Self {
        Choice::First(A::of(value))
    }
    fn value(self) -> T {
        match self {
            Choice::First(first) => first.value(),
            Choice::Other(other) => other.value(),
        }
    }
}

#[derive(serde::Serialize, serde::Deserialize)]
#[serde(untagged)]
enum OneOrList<A> {
    One(A),
    Many(Vec<A>),
}

impl<A> OneOrList<A> {
    fn values<T>(self) -> Vec<T>
    where
        A: Holds<T>,
    {
        match self {
            OneOrList::One(one) => vec![one.value()],
            OneOrList::Many(many) => many.value(),
        }
    }
}

/// One or a list, written as one where there is one.
#[derive(serde::Serialize, serde::Deserialize)]
#[serde(transparent)]
pub struct PreferOne<A>(OneOrList<A>);

impl<T, A: Holds<T>> Holds<Vec<T>> for PreferOne<A> {
    fn of(mut value: Vec<T>) -> Self {
        PreferOne(if value.len() == 1 {
            OneOrList::One(A::of(value.remove(0)))
        } else {
            OneOrList::Many(Vec::of(value))
        })
    }
    fn value(self) -> Vec<T> {
        self.0.values()
    }
}

/// One or a list, written as a list.
#[derive(serde::Serialize, serde::Deserialize)]
#[serde(transparent)]
pub struct PreferMany<A>(OneOrList<A>);

impl<T, A: Holds<T>> Holds<Vec<T>> for PreferMany<A> {
    fn of(value: Vec<T>) -> Self {
        PreferMany(OneOrList::Many(Vec::of(value)))
    }
    fn value(self) -> Vec<T> {
        self.0.values()
    }
}
