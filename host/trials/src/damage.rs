//! Ways to damage a flat type or an encoded one.

use crate::arguments;
use crate::flat::Flat;
use crate::random::Random;
use lomzegash::kind::FIELD;

/// A way to damage a flat type that has a node.
pub type FlatDamage = fn(&mut Flat, &mut Random);

/// A way to damage an encoded type that has a node.
pub type BytesDamage = fn(&mut Vec<u8>, &mut Random);

/// Every way to damage nodes. The two lengths stay equal.
pub const NODES: [FlatDamage; 8] =
    [any_kind, bad_kind, boundary_arg, any_arg, other_node, remove_node, insert_node, cut_off];

/// Every way to make the two lengths differ.
pub const LENGTHS: [FlatDamage; 4] = [
    |flat, _| {
        flat.kinds.pop();
    },
    |flat, _| {
        flat.args.pop();
    },
    |flat, _| flat.kinds.push(0),
    |flat, random| flat.args.extend(vec![0; random.between(1, 9)]),
];

/// Every way to damage encoded bytes.
pub const BYTES: [BytesDamage; 8] = [
    |bytes, _| {
        bytes.pop();
    },
    |bytes, random| bytes.push(random.number() as u8),
    |bytes, random| bytes.truncate(random.below(bytes.len())),
    |bytes, _| {
        bytes.remove(0);
    },
    |bytes, _| bytes.swap(0, 1),
    |bytes, random| bytes[random.below(2)] = random.number() as u8,
    |bytes, random| bytes[0] = bytes[0].wrapping_add(random.pick(&[1, 255])),
    |bytes, random| {
        let at = random.below(bytes.len());
        bytes[at] ^= random.between(1, 255) as u8;
    },
];

/// Kinds and arguments without rule.
pub fn random_nodes(random: &mut Random, size: usize) -> Flat {
    let mut flat = Flat::default();
    let kinds = random.pick(&[FIELD as usize + 1, FIELD as usize + 3, 256]);
    let valid = random.pick(&[0, 90, 100]);
    for _ in 0..size {
        let kind = random.below(kinds) as u8;
        let arg = if random.chance(valid) { arguments::valid(kind, random) } else { random.number() };
        flat.push(kind, arg);
    }
    flat
}

fn place(flat: &Flat, random: &mut Random) -> usize {
    random.below(flat.kinds.len())
}

/// Gives a node some kind, and tells which node.
fn change_kind(flat: &mut Flat, random: &mut Random) -> usize {
    let at = place(flat, random);
    flat.kinds[at] = random.below(FIELD as usize + 1) as u8;
    at
}

fn any_kind(flat: &mut Flat, random: &mut Random) {
    change_kind(flat, random);
}

fn bad_kind(flat: &mut Flat, random: &mut Random) {
    let at = place(flat, random);
    flat.kinds[at] = random.between(FIELD as usize + 1, 255) as u8;
}

fn boundary_arg(flat: &mut Flat, random: &mut Random) {
    let at = place(flat, random);
    flat.args[at] = random.pick(arguments::boundaries(flat.kinds[at]));
}

fn any_arg(flat: &mut Flat, random: &mut Random) {
    let at = place(flat, random);
    flat.args[at] = random.number() >> random.below(64);
}

/// Another kind with an argument that fits it, unless it is a Struct: the shape alone is wrong.
fn other_node(flat: &mut Flat, random: &mut Random) {
    let at = change_kind(flat, random);
    flat.args[at] = arguments::valid(flat.kinds[at], random);
}

fn remove_node(flat: &mut Flat, random: &mut Random) {
    let at = place(flat, random);
    flat.kinds.remove(at);
    flat.args.remove(at);
}

fn insert_node(flat: &mut Flat, random: &mut Random) {
    let at = random.between(0, flat.kinds.len());
    let kind = random.below(FIELD as usize + 1) as u8;
    flat.kinds.insert(at, kind);
    flat.args.insert(at, arguments::valid(kind, random));
}

fn cut_off(flat: &mut Flat, random: &mut Random) {
    let len = place(flat, random);
    flat.kinds.truncate(len);
    flat.args.truncate(len);
}
