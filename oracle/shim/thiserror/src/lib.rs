//! `#[derive(Error)]` with the conversions that `#[from]` asks for, and nothing else of thiserror.
use proc_macro::{Delimiter, TokenStream, TokenTree};

/// Writes `From` for each variant of an enum that has one unnamed field marked `#[from]`.
#[proc_macro_derive(Error, attributes(error, from, source))]
pub fn derive_error(input: TokenStream) -> TokenStream {
    let tokens: Vec<TokenTree> = input.into_iter().collect();
    let Some(name) = enum_name(&tokens) else {
        return TokenStream::new();
    };
    let Some(TokenTree::Group(body)) = tokens.last() else {
        return TokenStream::new();
    };
    let text: String = sources(body.stream())
        .iter()
        .map(|(variant, source)| conversion(&name, variant, source))
        .collect();
    text.parse().expect("the conversions are Rust")
}

/// The name of the enum, or none for a struct.
fn enum_name(tokens: &[TokenTree]) -> Option<String> {
    let at = tokens
        .iter()
        .position(|token| matches!(token, TokenTree::Ident(word) if word.to_string() == "enum"))?;
    tokens.get(at + 1).map(ToString::to_string)
}

/// The variants with a field marked `#[from]`, each with the type of that field.
fn sources(variants: TokenStream) -> Vec<(String, String)> {
    let mut found = Vec::new();
    let mut variant = String::new();
    for token in variants {
        match token {
            TokenTree::Ident(word) => variant = word.to_string(),
            TokenTree::Group(group) if group.delimiter() == Delimiter::Parenthesis => {
                let field: Vec<TokenTree> = group.stream().into_iter().collect();
                if let [TokenTree::Punct(_), TokenTree::Group(mark), source @ ..] = &field[..] {
                    if mark.stream().to_string() == "from" {
                        let source: TokenStream = source.iter().cloned().collect();
                        found.push((variant.clone(), source.to_string()));
                    }
                }
            }
            _ => {}
        }
    }
    found
}

fn conversion(name: &str, variant: &str, source: &str) -> String {
    format!(
        "impl From<{source}> for {name} {{
            fn from(source: {source}) -> Self {{ {name}::{variant}(source) }}
        }}"
    )
}
