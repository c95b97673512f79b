//! Implementations side by side, each between guard words: every lent slice stands in a longer one whose other words must
//! stay, and all implementations must answer and leave the same.

use crate::{Interface, Tally};
use std::cell::{Cell, RefCell};

pub struct Guarded {
    list: Vec<(&'static str, Box<dyn Interface>)>,
    odd: Cell<Option<&'static str>>,
    spare: RefCell<Vec<Blocks>>,
}

const MARGIN: usize = 64;
const GUARD_WORD: u32 = 0xC0DE_F00D;
const GUARD_BYTE: u8 = 0xD7;

/// A slice lent between guards.
#[derive(PartialEq)]
struct Block<E> {
    all: Vec<E>,
    guard: E,
}

impl<E: Copy + PartialEq> Block<E> {
    fn new(guard: E) -> Block<E> {
        Block { all: Vec::new(), guard }
    }

    fn fill(&mut self, content: &[E]) {
        self.all.clear();
        self.all.resize(MARGIN, self.guard);
        self.all.extend_from_slice(content);
        self.all.resize(content.len() + 2 * MARGIN, self.guard);
    }

    fn lent(&mut self) -> &mut [E] {
        let end = self.all.len() - MARGIN;
        &mut self.all[MARGIN..end]
    }

    /// Give the content back to its owner.
    fn give_back(&mut self, name: &str, owner: &mut [E]) {
        let end = self.all.len() - MARGIN;
        let kept = self.all[..MARGIN].iter().chain(&self.all[end..]).all(|&element| element == self.guard);
        assert!(kept, "{name}: a word outside the lent slice was changed");
        owner.copy_from_slice(self.lent());
    }
}

/// What a call may be lent: the words, a stack or a scratch, and an output.
type Blocks = (Block<u32>, Block<u32>, Block<u8>);

impl Guarded {
    pub fn new(list: Vec<(&'static str, Box<dyn Interface>)>) -> Guarded {
        Guarded { list, odd: Cell::new(None), spare: RefCell::default() }
    }

    /// The first implementation that did not do as the one before it, if there was one.
    pub fn odd(&self) -> Option<&'static str> {
        self.odd.get()
    }

    /// Make a call with every implementation. What an odd one does is the outcome, so that it is compared with the model.
    fn each<T: PartialEq>(
        &self,
        words: &mut [u32],
        more: &mut [u32],
        bytes: &mut [u8],
        call: impl Fn(&dyn Interface, &mut [u32], &mut [u32], &mut [u8]) -> T,
    ) -> T {
        let mut spare = self.spare.borrow_mut();
        let mut outcome: Option<(&str, T, Blocks)> = None;
        for (name, pool) in &self.list {
            let new = || (Block::new(GUARD_WORD), Block::new(GUARD_WORD), Block::new(GUARD_BYTE));
            let mut blocks = spare.pop().unwrap_or_else(new);
            blocks.0.fill(words);
            blocks.1.fill(more);
            blocks.2.fill(bytes);
            let answer = call(pool.as_ref(), blocks.0.lent(), blocks.1.lent(), blocks.2.lent());
            let before = outcome.replace((name, answer, blocks));
            if let (Some(before), Some(now)) = (before, &outcome) {
                let differs = (&before.1, &before.2) != (&now.1, &now.2);
                spare.push(before.2);
                if differs {
                    self.odd.set(self.odd.get().or(Some(name)));
                    break;
                }
            }
        }
        let (name, answer, mut blocks) = outcome.expect("there is an implementation");
        blocks.0.give_back(name, words);
        blocks.1.give_back(name, more);
        blocks.2.give_back(name, bytes);
        spare.push(blocks);
        answer
    }

    /// The same for a call that is lent the words alone.
    fn on<T: PartialEq>(&self, words: &mut [u32], call: impl Fn(&dyn Interface, &mut [u32]) -> T) -> T {
        self.each(words, &mut [], &mut [], |pool, words, _, _| call(pool, words))
    }
}

impl Interface for Guarded {
    fn fresh(&self, words: &mut [u32]) -> Result<(u32, u32), u32> {
        self.on(words, |pool, words| pool.fresh(words))
    }

    fn copy(&self, words: &mut [u32], r: u32, a: u32) -> Result<(), u32> {
        self.on(words, |pool, words| pool.copy(words, r, a))
    }

    fn clear(&self, words: &mut [u32], r: u32) -> Result<(), u32> {
        self.on(words, |pool, words| pool.clear(words, r))
    }

    fn new_cell(&self, words: &mut [u32], r: u32, a: u32, b: u32, v: u32) -> Result<u32, u32> {
        self.on(words, |pool, words| pool.new_cell(words, r, a, b, v))
    }

    fn point(&self, words: &mut [u32], r: u32, v: u32, x: u32, y: u32) -> Result<u32, u32> {
        self.on(words, |pool, words| pool.point(words, r, v, x, y))
    }

    fn left(&self, words: &mut [u32], r: u32, a: u32) -> Result<(), u32> {
        self.on(words, |pool, words| pool.left(words, r, a))
    }

    fn right(&self, words: &mut [u32], r: u32, a: u32) -> Result<(), u32> {
        self.on(words, |pool, words| pool.right(words, r, a))
    }

    fn setleft(&self, words: &mut [u32], a: u32, b: u32) -> Result<(), u32> {
        self.on(words, |pool, words| pool.setleft(words, a, b))
    }

    fn setright(&self, words: &mut [u32], a: u32, b: u32) -> Result<(), u32> {
        self.on(words, |pool, words| pool.setright(words, a, b))
    }

    fn setvalue(&self, words: &mut [u32], a: u32, v: u32) -> Result<(), u32> {
        self.on(words, |pool, words| pool.setvalue(words, a, v))
    }

    fn value(&self, words: &mut [u32], a: u32) -> Result<u32, u32> {
        self.on(words, |pool, words| pool.value(words, a))
    }

    fn east(&self, words: &mut [u32], a: u32) -> Result<u32, u32> {
        self.on(words, |pool, words| pool.east(words, a))
    }

    fn north(&self, words: &mut [u32], a: u32) -> Result<u32, u32> {
        self.on(words, |pool, words| pool.north(words, a))
    }

    fn same(&self, words: &mut [u32], a: u32, b: u32) -> Result<u32, u32> {
        self.on(words, |pool, words| pool.same(words, a, b))
    }

    fn collect(&self, words: &mut [u32]) -> Result<(u32, u32), u32> {
        self.on(words, |pool, words| pool.collect(words))
    }

    fn collect_tally(&self, words: &mut [u32], tally: &mut Tally) -> Result<(u32, u32), u32> {
        let before = *tally;
        let (answer, after) = self.on(words, |pool, words| {
            let mut tally = before;
            (pool.collect_tally(words, &mut tally), tally)
        });
        *tally = after;
        answer
    }

    fn collect_stack(&self, words: &mut [u32], stack: &mut [u32]) -> Result<(u32, u32, u32), u32> {
        self.each(words, stack, &mut [], |pool, words, stack, _| pool.collect_stack(words, stack))
    }

    fn worst_case(&self, words: &mut [u32]) -> Result<u32, u32> {
        self.on(words, |pool, words| pool.worst_case(words))
    }

    fn collect_recursive(&self, words: &mut [u32]) -> Result<(u32, u32), u32> {
        self.on(words, |pool, words| pool.collect_recursive(words))
    }

    fn save(&self, words: &mut [u32], scratch: &mut [u32], out: &mut [u8]) -> Result<usize, u32> {
        self.each(words, scratch, out, |pool, words, scratch, out| pool.save(words, scratch, out))
    }

    fn load(&self, words: &mut [u32], bytes: &[u8]) -> (Result<(), u32>, usize) {
        // The bytes stand in an allocation of their own length.
        let bytes = bytes.to_vec().into_boxed_slice();
        self.on(words, |pool, words| pool.load(words, &bytes))
    }

    fn check_image(&self, bytes: &[u8], n: u32) -> Result<(), u32> {
        let bytes = bytes.to_vec().into_boxed_slice();
        self.on(&mut [], |pool, _| pool.check_image(&bytes, n))
    }

    fn occupancy(&self, kept: u32, n: u32) -> Result<u32, u32> {
        self.on(&mut [], |pool, _| pool.occupancy(kept, n))
    }
}
