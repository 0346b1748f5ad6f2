//! Four bits a node, in 32 words: all that is kept of a table's nodes. Most tables need three.

use finchchaise::SCRATCH_WORDS;

const PLANE_WORDS: usize = 8;

/// The words of all planes.
pub type Scratch = [u32; SCRATCH_WORDS];
/// Those of the planes before `Dead`, which the pass over the nodes needs.
pub type PassScratch = [u32; PASS_WORDS];
pub const PASS_WORDS: usize = Plane::Dead as usize * PLANE_WORDS;
const _: () = assert!(SCRATCH_WORDS == PASS_WORDS + PLANE_WORDS);

/// One of a node's bits.
#[derive(Clone, Copy)]
pub enum Plane {
    /// It is a part or a body. As long as it leaves, its bit has another meaning: one of its leaves
    /// stands under an if whose condition is not single.
    Used,
    /// An expression that is not single, or a statement with a global effect.
    Fact,
    /// It leaves: a statement that nothing uses yet, with a leave in it that ends a while around it.
    Leaves,
    /// A statement in a branch that is never taken.
    Dead,
}

pub struct Planes<'words, const WORDS: usize = PASS_WORDS>(&'words mut [u32; WORDS]);

/// A node's word and bit. Neighbours lie in different words, since a word that has just been written
/// is slow to read. A field that is no node's number has a place too.
#[inline(always)]
fn place(plane: Plane, node: usize) -> (usize, u32) {
    let word = plane as usize * PLANE_WORDS + node % PLANE_WORDS;
    (word, (node / PLANE_WORDS) as u32 % u32::BITS)
}

impl<const WORDS: usize> Planes<'_, WORDS> {
    pub fn of(words: &mut [u32; WORDS]) -> Planes<'_, WORDS> {
        Planes(words)
    }

    #[inline(always)]
    pub fn has(&self, plane: Plane, node: usize) -> bool {
        let (word, bit) = place(plane, node);
        self.0[word] >> bit & 1 == 1
    }

    #[inline(always)]
    pub fn put(&mut self, plane: Plane, node: usize) {
        let (word, bit) = place(plane, node);
        self.0[word] |= 1 << bit;
    }

    /// Whether the node was there.
    #[inline(always)]
    pub fn take(&mut self, plane: Plane, node: usize) -> bool {
        let had = self.has(plane, node);
        if had {
            let (word, bit) = place(plane, node);
            self.0[word] ^= 1 << bit;
        }
        had
    }

    /// A plane's words.
    fn words(&mut self, plane: Plane) -> &mut [u32; PLANE_WORDS] {
        &mut self.0.as_chunks_mut().0[plane as usize]
    }

    /// Takes a node that is there, whichever.
    pub fn take_any(&mut self, plane: Plane) -> Option<usize> {
        let words = self.words(plane);
        let word = words.iter().position(|&bits| bits != 0)?;
        let bit = words[word].trailing_zeros();
        words[word] ^= 1 << bit;
        Some(bit as usize * PLANE_WORDS + word)
    }

    /// The lowest node with a bit in what is made of the planes, word by word. From 256 on: none has.
    #[inline(always)]
    pub fn lowest(&self, bits: impl Fn([u32; 3]) -> u32) -> usize {
        let place = |word: usize| {
            let words = [0, 1, 2].map(|plane| self.0[plane * PLANE_WORDS + word]);
            bits(words).trailing_zeros() as usize * PLANE_WORDS + word
        };
        (0..PLANE_WORDS).map(place).min().unwrap_or(0)
    }

    /// Takes all nodes that are in the other plane.
    pub fn take_all(&mut self, plane: Plane, other: Plane) {
        let taken = *self.words(other);
        let words = self.words(plane).iter_mut().zip(taken);
        words.for_each(|(word, taken)| *word &= !taken);
    }

    pub fn clear_plane(&mut self, plane: Plane) {
        self.words(plane).fill(0);
    }

    pub fn clear(&mut self) {
        self.0.fill(0);
    }
}
