//! Stand-in for the crate combine, as far as the parser of names is written with it. Nothing calls that parser here.

use core::marker::PhantomData;

/// What a stream gives.
pub trait Stream {
    fn peek(&mut self) -> Option<char>;
    fn advance(&mut self);
}

/// What a parser gives, or nothing where the text does not fit.
pub struct Parsed<O>(pub Option<O>);

impl<O> From<Parsed<O>> for Result<O, crate::parsable::NotParsed> {
    fn from(value: Parsed<O>) -> Self {
        value.0.ok_or(crate::parsable::NotParsed)
    }
}

pub trait Parser<Input>: Sized {
    type Output;
    fn parse_stream(&mut self, input: &mut Input) -> Parsed<Self::Output>;

    fn or<P: Parser<Input, Output = Self::Output>>(self, other: P) -> Or<Self, P> {
        Or(self, other)
    }
    fn and<P: Parser<Input>>(self, other: P) -> And<Self, P> {
        And(self, other)
    }
    fn map<O, F: FnMut(Self::Output) -> O>(self, f: F) -> Map<Self, F> {
        Map(self, f)
    }
}

pub struct One<Input>(fn(char, char) -> bool, char, PhantomData<Input>);
pub struct Or<P, Q>(P, Q);
pub struct And<P, Q>(P, Q);
pub struct Map<P, F>(P, F);
pub struct Many<C, P>(P, PhantomData<C>);

impl<Input: Stream> Parser<Input> for One<Input> {
    type Output = char;
    fn parse_stream(&mut self, input: &mut Input) -> Parsed<char> {
        let fits = input.peek().filter(|c| (self.0)(*c, self.1));
        if fits.is_some() {
            input.advance();
        }
        Parsed(fits)
    }
}

impl<Input, P: Parser<Input>, Q: Parser<Input, Output = P::Output>> Parser<Input> for Or<P, Q> {
    type Output = P::Output;
    fn parse_stream(&mut self, input: &mut Input) -> Parsed<P::Output> {
        Parsed(
            self.0
                .parse_stream(input)
                .0
                .or_else(|| self.1.parse_stream(input).0),
        )
    }
}

impl<Input, P: Parser<Input>, Q: Parser<Input>> Parser<Input> for And<P, Q> {
    type Output = (P::Output, Q::Output);
    fn parse_stream(&mut self, input: &mut Input) -> Parsed<Self::Output> {
        Parsed(
            self.0
                .parse_stream(input)
                .0
                .and_then(|p| self.1.parse_stream(input).0.map(|q| (p, q))),
        )
    }
}

impl<Input, O, P: Parser<Input>, F: FnMut(P::Output) -> O> Parser<Input> for Map<P, F> {
    type Output = O;
    fn parse_stream(&mut self, input: &mut Input) -> Parsed<O> {
        Parsed(self.0.parse_stream(input).0.map(&mut self.1))
    }
}

impl<Input, C: Default + Extend<P::Output>, P: Parser<Input>> Parser<Input> for Many<C, P> {
    type Output = C;
    fn parse_stream(&mut self, input: &mut Input) -> Parsed<C> {
        let mut all = C::default();
        while let Some(one) = self.0.parse_stream(input).0 {
            all.extend(Some(one));
        }
        Parsed(Some(all))
    }
}

pub fn token<Input>(c: char) -> One<Input> {
    One(|a, b| a == b, c, PhantomData)
}

pub fn many<C: Default + Extend<P::Output>, Input, P: Parser<Input>>(parser: P) -> Many<C, P> {
    Many(parser, PhantomData)
}

pub mod parser {
    pub mod char {
        use super::super::{One, PhantomData};

        pub fn letter<Input>() -> One<Input> {
            One(|c, _| c.is_alphabetic(), ' ', PhantomData)
        }
        pub fn alpha_num<Input>() -> One<Input> {
            One(|c, _| c.is_alphanumeric(), ' ', PhantomData)
        }
        pub fn char<Input>(c: char) -> One<Input> {
            super::super::token(c)
        }
    }
}
