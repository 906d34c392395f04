//! The steps that every rule of the grammar is made of.

use super::der::{check_all, Element, Elements};
use super::rules::{INTEGER, SEQUENCE};
use super::Fault;
use crate::types::Span;

/// "The module has explicit tags": context class, constructed.
pub const fn explicit(number: u8) -> u8 {
    0xA0 | number
}

/// Reads what is inside an element, and that nothing follows there.
#[inline(always)]
pub fn within<'a, T>(
    element: Element<'a>,
    contents: impl FnOnce(&mut Elements<'a>) -> Result<T, Fault>,
) -> Result<T, Fault> {
    let mut children = element.children();
    let found = contents(&mut children)?;
    children.finish()?;
    Ok(found)
}

/// One element of any kind, sound all through.
pub fn generic(run: &mut Elements) -> Result<Span, Fault> {
    Ok(run.generic()?.whole())
}

/// A SEQUENCE, sound all through.
pub fn generic_sequence(run: &mut Elements) -> Result<Span, Fault> {
    let element = run.expect(SEQUENCE)?;
    check_all(element.children())?;
    Ok(element.whole())
}

/// A primitive under an explicit context tag, if that is there: its content.
#[inline(always)]
pub fn tagged_primitive(run: &mut Elements, number: u8, tag: u8) -> Result<Span, Fault> {
    match run.optional(explicit(number))? {
        Some(wrapper) => within(wrapper, |inside| Ok(inside.expect(tag)?.inner())),
        None => Ok(Span::default()),
    }
}

/// A structure under an explicit context tag, if that is there: its element.
#[inline(always)]
pub fn tagged<'a>(
    run: &mut Elements<'a>,
    number: u8,
    structure: impl FnOnce(&mut Elements<'a>) -> Result<Span, Fault>,
) -> Result<Span, Fault> {
    match run.optional(explicit(number))? {
        Some(wrapper) => within(wrapper, structure),
        None => Ok(Span::default()),
    }
}

/// A SEQUENCE of one or more of the same.
#[inline(always)]
pub fn one_or_more<'a>(
    run: &mut Elements<'a>,
    item: impl Fn(&mut Elements<'a>) -> Result<Span, Fault>,
) -> Result<Span, Fault> {
    let sequence = run.expect(SEQUENCE)?;
    let mut items = sequence.children();
    item(&mut items)?;
    while items.peek().is_some() {
        item(&mut items)?;
    }
    Ok(sequence.whole())
}

/// "pvno, certReqId and status of more than four content bytes: refusal 2."
/// The value as a 32-bit two's complement pattern.
pub fn small_integer(run: &mut Elements) -> Result<u32, Fault> {
    let element = run.expect(INTEGER)?;
    let value = match *element.content() {
        [a] => i32::from(a as i8),
        [a, b] => i32::from(i16::from_be_bytes([a, b])),
        [a, b, c] => i32::from_be_bytes([a, b, c, 0]) >> 8,
        [a, b, c, d] => i32::from_be_bytes([a, b, c, d]),
        _ => return Err(element.misfit()),
    };
    Ok(value as u32)
}
