//! A place among the tokens of a text.

use crate::tokens::{Token, tokens};

pub struct Cursor<'t> {
    text: &'t [u8],
    tokens: Vec<Token>,
    at: usize,
}

impl<'t> Cursor<'t> {
    pub fn new(text: &'t [u8]) -> Cursor<'t> {
        Cursor { text, tokens: tokens(text), at: 0 }
    }

    /// The token so many after the one at hand; empty after the last.
    pub fn ahead(&self, more: usize) -> &'t str {
        let token = self.tokens.get(self.at + more).map(|t| &self.text[t.begin..t.end]);
        token.and_then(|bytes| std::str::from_utf8(bytes).ok()).unwrap_or("")
    }

    pub fn peek(&self) -> &'t str {
        self.ahead(0)
    }

    /// Where the token at hand begins in the text.
    pub fn place(&self) -> usize {
        self.tokens.get(self.at).map_or(self.text.len(), |token| token.begin)
    }

    /// The text from a place to the token at hand.
    pub fn since(&self, at: usize) -> &'t str {
        let end = self.place().max(at);
        std::str::from_utf8(&self.text[at..end]).unwrap_or("")
    }

    /// Takes a token, with its place.
    pub fn take(&mut self) -> Option<(&'t str, usize)> {
        let token = (self.peek(), self.place());
        self.at += 1;
        (!token.0.is_empty()).then_some(token)
    }

    /// Passes a token of this spelling; none where it is another one.
    pub fn pass(&mut self, wanted: &str) -> Option<()> {
        self.met(wanted).then_some(())
    }

    /// Whether the token at hand is of this spelling; it is passed then.
    pub fn met(&mut self, wanted: &str) -> bool {
        let met = self.peek() == wanted;
        self.at += usize::from(met);
        met
    }

    /// Passes what is between braces, from the first on; none where they do not close.
    pub fn pass_body(&mut self) -> Option<()> {
        self.pass("{")?;
        let mut open = 1;
        while open > 0 {
            match self.take()?.0 {
                "{" => open += 1,
                "}" => open -= 1,
                _ => {}
            }
        }
        Some(())
    }
}
