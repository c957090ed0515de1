//! Generated names for a chain call: for each place that there is room for, the place that it follows or nobody.

use super::chance::Chance;
use crate::model::MAX_PLACES;

/// The name of a place that follows nobody.
pub const NOBODY: u8 = 255;

/// Names of every kind for so many places, and any bytes past them. Most have no circle and name no absent place.
pub fn any(chance: &mut Chance, count: usize, room: usize) -> Vec<u8> {
    let mut names = match chance.within(0, 9) {
        0 => vec![NOBODY; count],
        1..=3 => forest(chance, count),
        4 | 5 => one_chain(chance, count),
        6 | 7 => with_a_circle(chance, count),
        8 => (0..count).map(|_| present(chance, count)).collect(),
        _ => chance.bytes(count),
    };
    if chance.one_in(10) {
        names[chance.index(count)] = absent(chance, count);
    }
    names.extend(past(chance, count, room));
    names
}

/// The same as the wrapper and the model take it; where there is room for more places, they follow nobody.
pub fn followed<const ROOM: usize>(names: &[u8]) -> [Option<usize>; ROOM] {
    let place = |name: u8| (name != NOBODY).then_some(usize::from(name));
    std::array::from_fn(|at| names.get(at).copied().and_then(place))
}

/// Places in any order.
fn places(chance: &mut Chance, count: usize) -> Vec<u8> {
    let mut places: Vec<u8> = (0..count as u8).collect();
    chance.shuffle(&mut places);
    places
}

/// Each place follows nobody or one that stands ahead of it in some order, so that no circle closes. Several may follow the same.
pub fn forest(chance: &mut Chance, count: usize) -> Vec<u8> {
    let (order, mut names) = (places(chance, count), vec![NOBODY; count]);
    for at in 1..count {
        if !chance.one_in(4) {
            names[usize::from(order[at])] = order[chance.index(at)];
        }
    }
    names
}

/// All places, one behind the other in some order.
pub fn one_chain(chance: &mut Chance, count: usize) -> Vec<u8> {
    let (order, mut names) = (places(chance, count), vec![NOBODY; count]);
    for pair in order.windows(2) {
        names[usize::from(pair[1])] = pair[0];
    }
    names
}

/// Some places go round a circle. What the others follow, that circle among it, has none.
fn with_a_circle(chance: &mut Chance, count: usize) -> Vec<u8> {
    let (order, mut names) = (places(chance, count), forest(chance, count));
    let length = 1 + chance.index(count);
    for at in 0..length {
        names[usize::from(order[at])] = order[(at + 1) % length];
    }
    names
}

fn present(chance: &mut Chance, count: usize) -> u8 {
    match chance.index(count + 1) {
        place if place < count => place as u8,
        _ => NOBODY,
    }
}

/// A place that the table does not have; often the first such.
fn absent(chance: &mut Chance, count: usize) -> u8 {
    let (beyond, most) = (chance.within(count as u64, 254) as u8, MAX_PLACES as u8);
    chance.pick(&[count as u8, beyond, most, most + 1, 127, 128, 253, 254])
}

/// What is not read: nobody, circles, and names of places that are there or are not.
fn past(chance: &mut Chance, count: usize, room: usize) -> Vec<u8> {
    let any = chance.bytes(room);
    let kind = chance.within(0, 3);
    let name = |place: usize| match kind {
        0 => NOBODY,
        1 => place as u8,
        2 => place as u8 % count as u8,
        _ => any[place],
    };
    (count..room).map(name).collect()
}
