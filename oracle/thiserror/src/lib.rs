//! Stand-in for the crate thiserror: `derive(Error)` for enums and tuple structs, with an `#[error("..")]` on each case.

use proc_macro::{Delimiter, TokenStream, TokenTree};

/// A case of an error: its path, its number of fields, and its text.
struct Case {
    path: String,
    fields: usize,
    text: String,
}

#[proc_macro_derive(Error, attributes(error))]
pub fn derive_error(item: TokenStream) -> TokenStream {
    let tokens: Vec<TokenTree> = item.into_iter().collect();
    let word = |token: &TokenTree, wanted: &str| matches!(token, TokenTree::Ident(i) if i.to_string() == wanted);
    let at = tokens
        .iter()
        .position(|t| word(t, "struct") || word(t, "enum"))
        .expect("a struct or an enum");
    let name = tokens[at + 1].to_string();
    let cases = if word(&tokens[at], "struct") {
        let text = text_of(&tokens[..at]).expect("a struct's #[error(..)]");
        vec![Case {
            path: name.clone(),
            fields: fields_of(tokens.get(at + 2)),
            text,
        }]
    } else {
        let TokenTree::Group(body) = &tokens[at + 2] else {
            panic!("an enum's body")
        };
        cases_of(&name, &body.stream().into_iter().collect::<Vec<_>>())
    };
    let arms: String = cases.iter().map(arm).collect();
    format!(
        "impl ::core::fmt::Display for {name} {{
             fn fmt(&self, f: &mut ::core::fmt::Formatter<'_>) -> ::core::fmt::Result {{ match self {{ {arms} }} }}
         }}
         impl ::core::error::Error for {name} {{}}"
    )
    .parse()
    .expect("generated code")
}

/// The text in the last `#[error("..")]` among some tokens.
fn text_of(tokens: &[TokenTree]) -> Option<String> {
    tokens.iter().rev().find_map(|token| {
        let TokenTree::Group(group) = token else {
            return None;
        };
        let inner: Vec<TokenTree> = group.stream().into_iter().collect();
        match inner.as_slice() {
            [TokenTree::Ident(error), TokenTree::Group(text)] if error.to_string() == "error" => {
                Some(text.stream().to_string())
            }
            _ => None,
        }
    })
}

/// The number of fields in the parentheses after a name, if there are any.
fn fields_of(token: Option<&TokenTree>) -> usize {
    match token {
        Some(TokenTree::Group(group)) if group.delimiter() == Delimiter::Parenthesis => {
            let inner: Vec<TokenTree> = group.stream().into_iter().collect();
            let commas = inner
                .iter()
                .filter(|t| matches!(t, TokenTree::Punct(p) if p.as_char() == ','))
                .count();
            let trailing = matches!(inner.last(), Some(TokenTree::Punct(p)) if p.as_char() == ',');
            if inner.is_empty() {
                0
            } else {
                commas + 1 - usize::from(trailing)
            }
        }
        _ => 0,
    }
}

/// The cases of an enum.
fn cases_of(name: &str, tokens: &[TokenTree]) -> Vec<Case> {
    tokens
        .split(|t| matches!(t, TokenTree::Punct(p) if p.as_char() == ','))
        .filter(|tokens| !tokens.is_empty())
        .map(|tokens| {
            let at = tokens
                .iter()
                .position(|t| matches!(t, TokenTree::Ident(_)))
                .expect("a case's name");
            Case {
                path: format!("{name}::{}", tokens[at]),
                fields: fields_of(tokens.get(at + 1)),
                text: text_of(&tokens[..at]).expect("a case's #[error(..)]"),
            }
        })
        .collect()
}

/// The arm of the match that writes a case's text.
fn arm(case: &Case) -> String {
    let Case { path, fields, text } = case;
    let names: Vec<String> = (0..*fields).map(|i| format!("_f{i}")).collect();
    let pattern = if *fields == 0 {
        path.clone()
    } else {
        format!("{path}({})", names.join(", "))
    };
    let text = (0..*fields).fold(text.clone(), |text, i| {
        text.replace(&format!("{{{i}}}"), &format!("{{_f{i}}}"))
    });
    format!("{pattern} => ::core::write!(f, {text}),")
}
