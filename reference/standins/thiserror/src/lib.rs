//! Stand-in for `thiserror`: `derive(Error)` for enums without generics.
//!
//! The messages of `#[error(..)]` are not needed by the reference and are left
//! out: `Display` prints what `Debug` prints. `#[from]` on the only field of a
//! variant yields the `From` implementation.

use proc_macro::{Delimiter, Group, TokenStream, TokenTree};

#[proc_macro_derive(Error, attributes(error, from))]
pub fn derive_error(item: TokenStream) -> TokenStream {
    let Some((name, body)) = enum_name_and_body(item) else {
        return "compile_error!(\"this stand-in derives Error for enums only\");"
            .parse()
            .expect("a macro call");
    };
    let mut code = format!(
        "impl ::core::fmt::Display for {name} {{
            fn fmt(&self, formatter: &mut ::core::fmt::Formatter<'_>) -> ::core::fmt::Result {{
                ::core::fmt::Debug::fmt(self, formatter)
            }}
        }}
        impl ::core::error::Error for {name} {{}}"
    );
    for variant in split_at_commas(body.stream()) {
        if let Some((variant, field)) = variant_with_from(variant) {
            code += &format!(
                "impl ::core::convert::From<{field}> for {name} {{
                    fn from(error: {field}) -> Self {{
                        {name}::{variant}(error)
                    }}
                }}"
            );
        }
    }
    code.parse().expect("the generated code is well formed")
}

/// Finds the name and the braces of `enum Name { .. }`.
fn enum_name_and_body(item: TokenStream) -> Option<(String, Group)> {
    let mut tokens = item.into_iter();
    tokens.find(|token| token.to_string() == "enum")?;
    let name = tokens.next()?.to_string();
    match tokens.next()? {
        TokenTree::Group(body) if body.delimiter() == Delimiter::Brace => Some((name, body)),
        _ => None,
    }
}

/// Splits tokens at the commas that are in no inner group.
fn split_at_commas(tokens: TokenStream) -> Vec<Vec<TokenTree>> {
    let mut parts = vec![Vec::new()];
    for token in tokens {
        match &token {
            TokenTree::Punct(punct) if punct.as_char() == ',' => parts.push(Vec::new()),
            _ => parts.last_mut().expect("one part at least").push(token),
        }
    }
    parts
}

/// For a variant `Name(#[from] Field)`: its name and the type of its field.
fn variant_with_from(variant: Vec<TokenTree>) -> Option<(String, String)> {
    let (_, rest) = split_attributes(variant);
    let [TokenTree::Ident(name), TokenTree::Group(fields)] = rest.as_slice() else {
        return None;
    };
    if fields.delimiter() != Delimiter::Parenthesis {
        return None;
    }
    let (attributes, field) = split_attributes(fields.stream().into_iter().collect());
    let is_from = attributes.iter().any(|attribute| attribute == "from");
    let field: TokenStream = field.into_iter().collect();
    is_from.then(|| (name.to_string(), field.to_string()))
}

/// Parts leading `#[..]` attributes, as text, from what follows them.
fn split_attributes(tokens: Vec<TokenTree>) -> (Vec<String>, Vec<TokenTree>) {
    let mut attributes = Vec::new();
    let mut rest = tokens.into_iter().peekable();
    while matches!(rest.peek(), Some(TokenTree::Punct(punct)) if punct.as_char() == '#') {
        rest.next();
        if let Some(TokenTree::Group(attribute)) = rest.next() {
            attributes.push(attribute.stream().to_string());
        }
    }
    (attributes, rest.collect())
}
