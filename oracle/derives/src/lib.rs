//! Stand-ins for the derives of strum and derive_more that receiver.rs names, for its plain types alone: enums whose cases each hold
//! one type, and structs of at most one field. A derive has to be a crate of its own.

use proc_macro::{Delimiter, TokenStream, TokenTree};

/// `is_normal()` and so on: the test of a case, by its name in small letters.
#[proc_macro_derive(IsVariant)]
pub fn is_variant(item: TokenStream) -> TokenStream {
    let (name, cases) = an_enum(item);
    let tests = join(&cases, |(case, _)| {
        let small = case.to_lowercase();
        format!("fn is_{small}(&self) -> bool {{ matches!(self, Self::{case}(_)) }}")
    });
    code(format!("#[allow(dead_code)] impl {name} {{ {tests} }}"))
}

/// receiver.rs calls nothing of what this would make, so it makes nothing.
#[proc_macro_derive(TryUnwrap, attributes(try_unwrap))]
pub fn try_unwrap(_item: TokenStream) -> TokenStream {
    TokenStream::new()
}

/// `Normal::new().into()` is the case that holds it.
#[proc_macro_derive(From)]
pub fn from(item: TokenStream) -> TokenStream {
    let (name, cases) = an_enum(item);
    code(join(&cases, |(case, held)| {
        format!(
            "impl From<{held}> for {name} {{ fn from(held: {held}) -> Self {{ Self::{case}(held) }} }}"
        )
    }))
}

/// The cases without what they hold, as an enum with `Discriminants` behind its name.
#[proc_macro_derive(EnumDiscriminants)]
pub fn enum_discriminants(item: TokenStream) -> TokenStream {
    let (name, cases) = an_enum(item);
    let names = join(&cases, |(case, _)| format!("{case},"));
    let arms = join(&cases, |(case, _)| {
        format!("Self::{case}(_) => {name}Discriminants::{case},")
    });
    code(format!(
        "enum {name}Discriminants {{ {names} }}
        impl IntoDiscriminant for {name} {{
            type Discriminant = {name}Discriminants;
            fn discriminant(&self) -> Self::Discriminant {{ match self {{ {arms} }} }}
        }}"
    ))
}

/// `new`, which takes the field, if there is one.
#[proc_macro_derive(Constructor)]
pub fn constructor(item: TokenStream) -> TokenStream {
    let (name, held) = named(item);
    let new = match held {
        Some(held) => format!("fn new(held: {held}) -> Self {{ Self(held) }}"),
        None => "fn new() -> Self { Self }".to_string(),
    };
    code(format!("impl {name} {{ {new} }}"))
}

fn code(text: String) -> TokenStream {
    text.parse().expect("Rust")
}

fn join(
    cases: &[(String, TokenStream)],
    text: impl Fn(&(String, TokenStream)) -> String,
) -> String {
    cases.iter().map(text).collect()
}

/// The name of an enum, and of each case its name and what it holds.
fn an_enum(item: TokenStream) -> (String, Vec<(String, TokenStream)>) {
    let (name, body) = named(item);
    let mut cases = vec![];
    for token in body.expect("the cases") {
        match token {
            TokenTree::Ident(case) => cases.push((case.to_string(), TokenStream::new())),
            TokenTree::Group(held) => cases.last_mut().expect("a case").1 = held.stream(),
            _ => {}
        }
    }
    (name, cases)
}

/// The name behind `enum` or `struct`, and what stands in the brackets behind it.
fn named(item: TokenStream) -> (String, Option<TokenStream>) {
    let mut tokens = item.into_iter().skip_while(|token| !is_keyword(token));
    let name = tokens.nth(1).expect("a name").to_string();
    let body = tokens.find_map(|token| match token {
        TokenTree::Group(body) if body.delimiter() != Delimiter::Bracket => Some(body.stream()),
        _ => None,
    });
    (name, body)
}

fn is_keyword(token: &TokenTree) -> bool {
    matches!(token, TokenTree::Ident(word) if ["enum", "struct"].contains(&word.to_string().as_str()))
}
