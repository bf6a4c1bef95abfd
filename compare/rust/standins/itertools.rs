//! Stands in for the crate `itertools`: `coalesce`, `izip!` of three, and `kmerge_by` by the same heap, so that equal items come out
//! in the same order as there.

pub trait Itertools: Iterator {
    /// Sorted iterators merged into one.
    fn kmerge_by<F>(self, less: F) -> KMergeBy<<Self::Item as IntoIterator>::IntoIter, F>
    where
        Self: Sized,
        Self::Item: IntoIterator,
        F: FnMut(&<Self::Item as IntoIterator>::Item, &<Self::Item as IntoIterator>::Item) -> bool,
    {
        let runs = self.filter_map(|run| Run::new(run.into_iter()));
        let mut merge = KMergeBy {
            heap: runs.collect(),
            less,
        };
        for at in (0..merge.heap.len() / 2).rev() {
            merge.sift_down(at);
        }
        merge
    }

    /// Neighbours joined where `join` answers one item for two.
    fn coalesce<F>(mut self, join: F) -> Coalesce<Self, F>
    where
        Self: Sized,
        F: FnMut(Self::Item, Self::Item) -> Result<Self::Item, (Self::Item, Self::Item)>,
    {
        let last = self.next();
        Coalesce {
            rest: self,
            last,
            join,
        }
    }
}

impl<I: Iterator> Itertools for I {}

/// An iterator with its first item taken out.
struct Run<I: Iterator> {
    head: I::Item,
    tail: I,
}

impl<I: Iterator> Run<I> {
    fn new(mut tail: I) -> Option<Self> {
        let head = tail.next()?;
        Some(Self { head, tail })
    }
}

/// The runs as a heap, the one with the least head first.
pub struct KMergeBy<I: Iterator, F> {
    heap: Vec<Run<I>>,
    less: F,
}

impl<I: Iterator, F: FnMut(&I::Item, &I::Item) -> bool> KMergeBy<I, F> {
    fn less(&mut self, a: usize, b: usize) -> bool {
        (self.less)(&self.heap[a].head, &self.heap[b].head)
    }

    /// Exchanges the run at a place with its lesser child, the left of equal ones, as long as that child is less.
    fn sift_down(&mut self, mut at: usize) {
        loop {
            let mut child = 2 * at + 1;
            if child >= self.heap.len() {
                return;
            }
            if child + 1 < self.heap.len() && self.less(child + 1, child) {
                child += 1;
            }
            if !self.less(child, at) {
                return;
            }
            self.heap.swap(at, child);
            at = child;
        }
    }
}

impl<I: Iterator, F: FnMut(&I::Item, &I::Item) -> bool> Iterator for KMergeBy<I, F> {
    type Item = I::Item;

    fn next(&mut self) -> Option<I::Item> {
        let first = self.heap.first_mut()?;
        let item = match first.tail.next() {
            Some(next) => std::mem::replace(&mut first.head, next),
            None => self.heap.swap_remove(0).head,
        };
        self.sift_down(0);
        Some(item)
    }
}

pub struct Coalesce<I: Iterator, F> {
    rest: I,
    last: Option<I::Item>,
    join: F,
}

impl<I, F> Iterator for Coalesce<I, F>
where
    I: Iterator,
    F: FnMut(I::Item, I::Item) -> Result<I::Item, (I::Item, I::Item)>,
{
    type Item = I::Item;

    fn next(&mut self) -> Option<I::Item> {
        let mut last = self.last.take()?;
        for next in self.rest.by_ref() {
            match (self.join)(last, next) {
                Ok(joined) => last = joined,
                Err((done, next)) => {
                    self.last = Some(next);
                    return Some(done);
                }
            }
        }
        Some(last)
    }
}

#[macro_export]
macro_rules! izip {
    ($a:expr, $b:expr, $c:expr) => {
        $a.into_iter().zip($b).zip($c).map(|((a, b), c)| (a, b, c))
    };
}
