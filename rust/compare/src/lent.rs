//! Memory to lend, in two manners: between borders that no call may touch, or alone in a heap
//! allocation of exactly its size, where a memory checker sees every step outside.

/// How memory is lent.
#[derive(Clone, Copy, Debug, PartialEq, Eq)]
pub enum Manner {
    Bordered,
    Exact,
}

const BORDER: usize = 16;

pub struct Lent<T> {
    whole: Box<[T]>,
    border: usize,
    mark: T,
}

impl<T: Copy + PartialEq> Lent<T> {
    /// The contents, with the mark all around them if there are borders.
    pub fn new(manner: Manner, contents: &[T], mark: T) -> Lent<T> {
        match manner {
            Manner::Bordered => {
                let border = [mark; BORDER];
                let whole = [&border, contents, &border].concat().into_boxed_slice();
                Lent { whole, border: BORDER, mark }
            }
            Manner::Exact => Lent { whole: Box::from(contents), border: 0, mark },
        }
    }

    pub fn part(&mut self) -> &mut [T] {
        let end = self.whole.len() - self.border;
        &mut self.whole[self.border..end]
    }

    pub fn contents(&self) -> &[T] {
        &self.whole[self.border..self.whole.len() - self.border]
    }

    /// Whether both borders are as they were made.
    pub fn kept_borders(&self) -> bool {
        let end = self.whole.len() - self.border;
        let (front, behind) = (&self.whole[..self.border], &self.whole[end..]);
        front.iter().chain(behind).all(|&element| element == self.mark)
    }
}
