//! Elements held to "DER as we take it" one by one, and the steps that a grammar
//! is read with.

use super::rules::{content_fits, extent, shape, Shape, SHAPES};
use super::{Fault, Rule};
use crate::types::Span;

/// "A nest at most 16 elements deep, the message being depth 1."
const DEPTH_LIMIT: usize = 16;

/// One element that is sound itself; its children are yet to be read.
#[derive(Clone, Copy)]
pub struct Element<'a> {
    /// The message up to this element's end.
    upto: &'a [u8],
    offset: usize,
    /// Where the content starts.
    inside: usize,
    /// How many elements it lies inside.
    level: usize,
}

impl<'a> Element<'a> {
    pub fn children(&self) -> Elements<'a> {
        Elements {
            upto: self.upto,
            at: self.inside,
            level: self.level + 1,
        }
    }

    pub fn content(&self) -> &'a [u8] {
        &self.upto[self.inside..]
    }

    /// The element with its tag and length.
    pub fn whole(&self) -> Span {
        Span {
            start: self.offset,
            len: self.upto.len() - self.offset,
        }
    }

    /// The content alone.
    pub fn inner(&self) -> Span {
        Span {
            start: self.inside,
            len: self.upto.len() - self.inside,
        }
    }

    /// The fault of an element that does not fit its place.
    pub fn misfit(&self) -> Fault {
        Fault {
            offset: self.offset,
            rule: Rule::Grammar,
        }
    }
}

/// A run of elements up to their parent's end, and the next of them.
#[derive(Clone, Copy)]
pub struct Elements<'a> {
    /// The message up to the parent's end.
    upto: &'a [u8],
    /// Where the next element starts.
    at: usize,
    /// How many elements the run lies inside.
    level: usize,
}

impl<'a> Elements<'a> {
    /// The whole input, which lies inside no element.
    pub fn of(input: &'a [u8]) -> Self {
        Elements::inside(input, 0)
    }

    /// A run by itself that lies inside so many elements.
    pub fn inside(run: &'a [u8], level: usize) -> Self {
        Elements {
            upto: run,
            at: 0,
            level,
        }
    }

    /// The next element's tag byte, if there is a next element.
    #[inline(always)]
    pub fn peek(&self) -> Option<u8> {
        self.upto.get(self.at).copied()
    }

    /// Points 1 to 3: the next element if its tag, length and form are sound
    /// and it is not too deep, else the lowest rule it breaks.
    #[inline(always)]
    fn frame(&self, shape: Shape) -> Result<Element<'a>, Rule> {
        if shape == Shape::BadTag {
            return Err(Rule::Tag);
        }
        let (upto, inside) = extent(self.upto, self.at).ok_or(Rule::Length)?;
        if shape == Shape::BadForm || self.level >= DEPTH_LIMIT {
            return Err(Rule::Form);
        }
        Ok(Element {
            upto,
            offset: self.at,
            inside,
            level: self.level,
        })
    }

    /// All four points: the next element if it is sound itself, else the lowest
    /// rule it breaks.
    #[inline(always)]
    fn judge(&self, shape: Shape) -> Result<Element<'a>, Rule> {
        let element = self.frame(shape)?;
        if content_fits(shape, element.content()) {
            Ok(element)
        } else {
            Err(Rule::Content)
        }
    }

    fn fault(&self, rule: Rule) -> Fault {
        Fault {
            offset: self.at,
            rule,
        }
    }
}

/// Every element of a run with all that is inside it, in the order of the
/// bytes, so that the first fault is the lowest.
pub fn check_all(run: Elements) -> Result<(), Fault> {
    let mut ends = [0; DEPTH_LIMIT];
    let mut here = run;
    loop {
        let Some(tag) = here.peek() else {
            if here.level == run.level {
                return Ok(());
            }
            here.level -= 1;
            here.upto = &run.upto[..ends[here.level]];
            continue;
        };
        let shape = SHAPES[usize::from(tag)];
        let element = here.frame(shape).map_err(|rule| here.fault(rule))?;
        if shape == Shape::Constructed {
            ends[here.level] = here.upto.len();
            here = element.children();
        } else if content_fits(shape, element.content()) {
            here.at = element.upto.len();
        } else {
            return Err(here.fault(Rule::Content));
        }
    }
}

/// The steps a grammar is read with.
impl<'a> Elements<'a> {
    /// The next element, which is there and has this shape.
    #[inline(always)]
    fn take(&mut self, shape: Shape) -> Result<Element<'a>, Fault> {
        let element = self.judge(shape).map_err(|rule| self.fault(rule))?;
        self.at = element.upto.len();
        Ok(element)
    }

    /// The next element, which has to have this tag.
    #[inline(always)]
    pub fn expect(&mut self, tag: u8) -> Result<Element<'a>, Fault> {
        if self.peek() == Some(tag) {
            self.take(shape(tag))
        } else {
            Err(self.misfit())
        }
    }

    /// The next element if it has this tag: an optional part is known by its
    /// tag byte alone.
    #[inline(always)]
    pub fn optional(&mut self, tag: u8) -> Result<Option<Element<'a>>, Fault> {
        if self.peek() == Some(tag) {
            self.take(shape(tag)).map(Some)
        } else {
            Ok(None)
        }
    }

    /// The next element, of whatever tag, sound all through.
    pub fn generic(&mut self) -> Result<Element<'a>, Fault> {
        let tag = self.peek().ok_or_else(|| self.misfit())?;
        let element = self.take(SHAPES[usize::from(tag)])?;
        if tag & 0x20 != 0 {
            check_all(element.children())?;
        }
        Ok(element)
    }

    /// Nothing may follow.
    #[inline(always)]
    pub fn finish(&self) -> Result<(), Fault> {
        if self.peek().is_none() {
            Ok(())
        } else {
            Err(self.misfit())
        }
    }

    /// The fault where the next element cannot come, or breaks a lower rule
    /// itself, or is missing at its parent's end.
    #[cold]
    pub fn misfit(&self) -> Fault {
        let own = self.peek().and_then(|tag| self.judge(shape(tag)).err());
        self.fault(own.unwrap_or(Rule::Grammar))
    }
}
