//! Stand-in: what parsers read and give. Nothing is parsed here.

use core::marker::PhantomData;

/// The text does not fit.
#[derive(Debug)]
pub struct NotParsed;

pub type ParseResult<'a, T> = Result<T, NotParsed>;

/// A text, and the place in it.
pub struct StateStream<'a>(
    core::iter::Peekable<core::str::Chars<'a>>,
    PhantomData<&'a ()>,
);

impl crate::combine::Stream for StateStream<'_> {
    fn peek(&mut self) -> Option<char> {
        self.0.peek().copied()
    }
    fn advance(&mut self) {
        self.0.next();
    }
}

pub trait Parsable {
    type Arg;
    type Parsed;
    fn parse<'a>(
        state_stream: &mut StateStream<'a>,
        arg: Self::Arg,
    ) -> ParseResult<'a, Self::Parsed>;
}
