//! Paths beside the node of the chat keys, m/43'/60'/1581' (EIP-1581), from which on down EXPORT gives a private part. Lengths are in bytes.

use outside::model::card::{COMPONENT_BYTES, PATH_BYTES};
use outside::random::choice::{array, chance, pick};
use outside::random::Random;

/// The node's components; the top bit is part of each.
pub const NODE: [u32; 3] = [0x8000_002b, 0x8000_003c, 0x8000_062d];
const NODE_BYTES: usize = NODE.len() * COMPONENT_BYTES;

/// Where a path lies beside the node.
#[derive(Clone, Copy, PartialEq, Eq, PartialOrd, Ord, Debug)]
pub enum Place {
    /// The master key and the first two components.
    Above,
    At,
    Below,
    /// One of the first three components is another one.
    Beside,
}

pub const EVERY_PLACE: [Place; 4] = [Place::Above, Place::At, Place::Below, Place::Beside];

impl Place {
    /// Whether a private part goes out from here.
    pub fn is_inside(self) -> bool {
        matches!(self, Place::At | Place::Below)
    }
}

/// The place of a path of whole components.
pub fn place_of(path: &[u8]) -> Place {
    let component = |bytes: &[u8]| bytes.iter().fold(0, |sum, &b| sum << 8 | u32::from(b));
    let components: Vec<u32> = path.chunks(COMPONENT_BYTES).map(component).collect();
    let alike = components.iter().zip(NODE).take_while(|(given, wanted)| *given == wanted).count();
    match components.len() {
        length if alike == NODE.len() && length == NODE.len() => Place::At,
        _ if alike == NODE.len() => Place::Below,
        length if alike == length => Place::Above,
        _ => Place::Beside,
    }
}

/// The path of these components.
pub fn path_of(components: &[u32]) -> Vec<u8> {
    components.iter().flat_map(|component| component.to_be_bytes()).collect()
}

fn more_components(random: &mut Random, least: usize, most: usize) -> Vec<u8> {
    let components = least + random.below(most - least + 1);
    random.bytes(components * COMPONENT_BYTES)
}

/// A path of this place.
pub fn path_at(random: &mut Random, place: Place) -> Vec<u8> {
    let most = PATH_BYTES / COMPONENT_BYTES - NODE.len();
    match place {
        Place::Above => path_of(&NODE[..random.below(NODE.len())]),
        Place::At => path_of(&NODE),
        Place::Below => [path_of(&NODE), more_components(random, 1, most)].concat(),
        Place::Beside => {
            let mut path = [path_of(&NODE), more_components(random, 0, most)].concat();
            if chance(random, 30) {
                path.truncate(pick(random, &[1, 2]) * COMPONENT_BYTES);
            }
            let bits = path.len().min(NODE_BYTES) * 8;
            let bit = random.below(bits);
            path[bit / 8] ^= 0x80 >> (bit % 8);
            path
        }
    }
}

/// Paths of every place, one by one: above the node with each number of components, at it, below it with each number, and beside it by its
/// components in another order, after another one, without the first one, or by the top bit of one.
pub fn every_path(random: &mut Random) -> Vec<Vec<u8>> {
    let node = path_of(&NODE);
    let mut paths: Vec<Vec<u8>> = (0..=NODE.len()).map(|components| path_of(&NODE[..components])).collect();
    for components in 1..=PATH_BYTES / COMPONENT_BYTES - NODE.len() {
        paths.push([&node[..], &random.bytes(components * COMPONENT_BYTES)].concat());
    }
    for at in [0, COMPONENT_BYTES, 2 * COMPONENT_BYTES] {
        let mut path = node.clone();
        path[at] ^= 0x80;
        paths.push([path, more_components(random, 1, 7)].concat());
    }
    let [first, second, third] = NODE;
    for components in [[second, first, third], [first, third, second], [third, second, first], [first; 3]] {
        paths.push(path_of(&components));
    }
    let other: [u8; COMPONENT_BYTES] = array(random);
    paths.push([&other, &node[..]].concat());
    paths.push(node[COMPONENT_BYTES..].to_vec());
    paths.push([&node[..2 * COMPONENT_BYTES], &node[COMPONENT_BYTES..]].concat());
    paths.push(vec![0; PATH_BYTES]);
    paths
}

/// The node with each of its bits changed, and that one alone.
pub fn every_neighbour() -> impl Iterator<Item = Vec<u8>> {
    (0..NODE_BYTES * 8).map(|bit| {
        let mut path = path_of(&NODE);
        path[bit / 8] ^= 0x80 >> (bit % 8);
        path
    })
}
