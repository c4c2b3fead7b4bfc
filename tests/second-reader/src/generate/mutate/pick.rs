//! Picking a list or an AVP of the tree.

use crate::generate::prng::Prng;
use crate::generate::tree::{Body, Node, Tree};

/// A list of the command: its own or, as likely, one below.
pub fn some_list<'a>(list: &'a mut Vec<Node>, prng: &mut Prng) -> &'a mut Vec<Node> {
    let groups: Vec<usize> = (0..list.len()).filter(|&i| matches!(list[i].body, Body::Members(_))).collect();
    if groups.is_empty() || prng.one_in(3) {
        return list;
    }
    let group = prng.pick(&groups);
    match &mut list[group].body {
        Body::Members(members) => some_list(members, prng),
        Body::Data(_) => unreachable!("groups have members"),
    }
}

pub fn some_node<'a>(tree: &'a mut Tree, prng: &mut Prng) -> Option<&'a mut Node> {
    let list = some_list(&mut tree.list, prng);
    let at = prng.below(list.len());
    list.get_mut(at)
}

/// Does `change` to every AVP.
pub fn each(list: &mut [Node], change: &mut impl FnMut(&mut Node)) {
    for node in list {
        change(node);
        if let Body::Members(members) = &mut node.body {
            each(members, change);
        }
    }
}

/// Does `change` to one of the AVPs that `wanted` picks.
pub fn one(tree: &mut Tree, prng: &mut Prng, wanted: impl Fn(&Node) -> bool, change: impl Fn(&mut Node, &mut Prng)) {
    let mut number = 0;
    each(&mut tree.list, &mut |node| number += usize::from(wanted(node)));
    let chosen = prng.below(number);
    let mut met = 0;
    each(&mut tree.list, &mut |node| {
        if wanted(node) {
            if met == chosen {
                change(node, prng);
            }
            met += 1;
        }
    });
}
