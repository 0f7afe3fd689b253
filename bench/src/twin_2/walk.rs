//! What a walk along the circuits reaches from the reference: sets of nodes, one bit a node in four words.

type Set = [u64; 4];

fn in_word(w: usize, word: u64, node: usize) -> bool {
    node / 64 == w && (word >> (node % 64)) & 1 == 1
}

fn add(set: &mut Set, node: usize) {
    set[node / 64] |= 1 << (node % 64);
}

/// The lowest number in the set.
fn lowest(set: &Set) -> Option<usize> {
    let w = set.iter().position(|word| *word != 0)?;
    Some(64 * w + set[w].trailing_zeros() as usize)
}

fn without(a: &Set, b: &Set) -> Set {
    std::array::from_fn(|w| a[w] & !b[w])
}

fn size(set: &Set) -> usize {
    set.iter().map(|word| word.count_ones() as usize).sum()
}

/// The nodes reached. The next node that waits is visited with the others of its word that wait; nodes of the word that are met on the way are followed
/// from there on, and wait for a visit of their own.
fn reached(nodes: usize, reference: usize, first: &[usize], second: &[usize]) -> Set {
    let (mut reached, mut visited) = ([0; 4], [0; 4]);
    add(&mut reached, reference);
    while size(&reached) < nodes {
        let waiting = without(&reached, &visited);
        let Some(next) = lowest(&waiting) else { break };
        let w = next / 64;
        let mut word = waiting[w];
        for (first, second) in first.iter().zip(second) {
            if in_word(w, word, *first) || in_word(w, word, *second) {
                add(&mut reached, *first);
                add(&mut reached, *second);
                word = reached[w] & !visited[w];
            }
        }
        visited[w] |= waiting[w];
    }
    reached
}

/// The lowest node that is not reached, if there is one.
pub fn unreached(nodes: usize, reference: usize, first: &[usize], second: &[usize]) -> Option<usize> {
    let reached = reached(nodes, reference, first, second);
    lowest(&without(&[u64::MAX; 4], &reached)).filter(|node| *node < nodes)
}
