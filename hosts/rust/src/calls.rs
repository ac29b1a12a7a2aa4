//! The calls as a trait, for code that is generic in who keeps the board.
use crate::{Board, Dock, Mark, Pair, Plan, Refusal, Row};

/// The calls of [`Board`] and [`Dock`] for generic code: each is the type's method of that name, which needs no trait.
pub trait Calls {
    /// [`Board::addition`] or [`Dock::addition`].
    fn addition(
        &mut self,
        length: i32,
        earliest: i32,
        latest: i32,
        mark: Mark,
    ) -> Result<usize, Refusal>;

    /// [`Board::arc`] or [`Dock::arc`].
    fn arc(&mut self, from: usize, to: usize) -> Result<(), Refusal>;

    /// [`Board::mark`] or [`Dock::mark`].
    fn mark(&mut self, job: usize, mark: Mark) -> Result<(), Refusal>;

    /// [`Board::cut`] or [`Dock::cut`].
    fn cut(&mut self, job: usize, earliest: i32, latest: i32) -> Result<(), Refusal>;

    /// [`Board::row`] or [`Dock::row`].
    fn row(&self, job: usize) -> Result<Row, Refusal>;

    /// [`Board::pair`] or [`Dock::pair`].
    fn pair(&self, a: usize, b: usize) -> Result<Pair, Refusal>;

    /// [`Board::plan`] or [`Dock::plan`].
    fn plan(&self, budget: u32) -> Result<Plan, Refusal>;
}

macro_rules! forward {
    ($type:ident) => {
        impl Calls for $type {
            fn addition(
                &mut self,
                length: i32,
                earliest: i32,
                latest: i32,
                mark: Mark,
            ) -> Result<usize, Refusal> {
                $type::addition(self, length, earliest, latest, mark)
            }

            fn arc(&mut self, from: usize, to: usize) -> Result<(), Refusal> {
                $type::arc(self, from, to)
            }

            fn mark(&mut self, job: usize, mark: Mark) -> Result<(), Refusal> {
                $type::mark(self, job, mark)
            }

            fn cut(&mut self, job: usize, earliest: i32, latest: i32) -> Result<(), Refusal> {
                $type::cut(self, job, earliest, latest)
            }

            fn row(&self, job: usize) -> Result<Row, Refusal> {
                $type::row(self, job)
            }

            fn pair(&self, a: usize, b: usize) -> Result<Pair, Refusal> {
                $type::pair(self, a, b)
            }

            fn plan(&self, budget: u32) -> Result<Plan, Refusal> {
                $type::plan(self, budget)
            }
        }
    };
}

forward!(Board);
forward!(Dock);
