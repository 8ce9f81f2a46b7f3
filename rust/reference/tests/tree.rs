//! The forest grown leaf by leaf against the tree by the split.

use reference::hash::H;
use reference::random::Random;
use reference::tree::{join, node_string, split, tree, Forest, Letter, Subtree};

fn leaves(random: &mut Random, count: usize) -> Vec<Subtree> {
    let mut key = 0;
    (0..count)
        .map(|_| {
            key += 1 + random.below(5);
            Subtree::leaf(&mut H, key, &random.bytes(20))
        })
        .collect()
}

#[test]
fn split_is_the_largest_power_of_two_below() {
    assert_eq!([2, 3, 4, 5, 7, 8, 9].map(split), [1, 2, 2, 4, 4, 4, 8]);
    for n in 2..5000 {
        let left = split(n);
        assert!(left.is_power_of_two() && left < n && 2 * left >= n);
    }
}

#[test]
fn forest_equals_split_after_every_leaf() {
    let mut random = Random::new(8);
    for letter in [Letter::N, Letter::P] {
        let all = leaves(&mut random, 300);
        let mut forest = Forest::new(letter);
        assert_eq!(forest.close(&mut H), None);
        for count in 1..=all.len() {
            forest.append(&mut H, all[count - 1]);
            let closed = forest.close(&mut H).unwrap();
            assert_eq!(closed, tree(&mut H, letter, &all[..count]), "{count}");
            assert_eq!((closed.least, closed.greatest), (all[0].least, all[count - 1].greatest));
        }
    }
}

#[test]
fn shapes() {
    let all = leaves(&mut Random::new(9), 5);
    let [a, b, c, d, e] = all[..] else { unreachable!() };
    let n = |left: &Subtree, right: &Subtree| join(&mut H, Letter::N, left, right);
    assert_eq!(tree(&mut H, Letter::N, &[a]), a);
    assert_eq!(tree(&mut H, Letter::N, &[a, b, c]), n(&n(&a, &b), &c));
    assert_eq!(tree(&mut H, Letter::N, &[a, b, c, d, e]), n(&n(&n(&a, &b), &n(&c, &d)), &e));
    assert_ne!(tree(&mut H, Letter::N, &[a, b]), tree(&mut H, Letter::P, &[a, b]));
    assert_ne!(tree(&mut H, Letter::N, &[a, b]), tree(&mut H, Letter::N, &[b, a]));
    let string = node_string(Letter::P, &a, &b);
    assert_eq!((string[0], string.len()), (b'P', 97));
    assert_eq!((Subtree::at(&string, 1), Subtree::at(&string, 49)), (a, b));
}
