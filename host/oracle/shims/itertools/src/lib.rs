//! `collect_vec`, `join` and `at_most_one`.
use std::fmt::{self, Display, Write};

pub trait Itertools: Iterator {
    fn collect_vec(self) -> Vec<Self::Item>
    where
        Self: Sized,
    {
        self.collect()
    }

    fn join(&mut self, sep: &str) -> String
    where
        Self::Item: Display,
    {
        let mut out = String::new();
        for (i, item) in self.enumerate() {
            if i > 0 {
                out.push_str(sep);
            }
            write!(out, "{item}").unwrap();
        }
        out
    }

    fn at_most_one(mut self) -> Result<Option<Self::Item>, ExactlyOneError<Self>>
    where
        Self: Sized,
    {
        match self.next() {
            None => Ok(None),
            Some(first) => match self.next() {
                None => Ok(Some(first)),
                Some(second) => {
                    Err(ExactlyOneError { first: Some(first), second: Some(second), rest: self })
                }
            },
        }
    }
}

impl<T: Iterator + ?Sized> Itertools for T {}

/// More than one item: yields all of them again.
pub struct ExactlyOneError<I: Iterator> {
    first: Option<I::Item>,
    second: Option<I::Item>,
    rest: I,
}

impl<I: Iterator> Iterator for ExactlyOneError<I> {
    type Item = I::Item;

    fn next(&mut self) -> Option<I::Item> {
        self.first.take().or_else(|| self.second.take()).or_else(|| self.rest.next())
    }
}

impl<I: Iterator> fmt::Debug for ExactlyOneError<I> {
    fn fmt(&self, f: &mut fmt::Formatter<'_>) -> fmt::Result {
        f.write_str("ExactlyOneError")
    }
}
