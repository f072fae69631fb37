//! The derives that the originals use, as far as the oracle needs them.

extern crate proc_macro;
use proc_macro::{Delimiter, TokenStream, TokenTree};

/// The name of the type, its generic parameters (none of the originals' has bounds) and, for a
/// struct with named fields, the fields' names.
fn parts(input: TokenStream) -> (String, Vec<String>, Vec<String>) {
    let mut tokens = input.into_iter().peekable();
    let is_struct = loop {
        match tokens.next().expect("a type").to_string().as_str() {
            "struct" => break true,
            "enum" => break false,
            _ => {}
        }
    };
    let name = tokens.next().expect("a name").to_string();
    let mut generics = Vec::new();
    if tokens.peek().map_or(false, |t| t.to_string() == "<") {
        generics = tokens
            .by_ref()
            .take_while(|t| t.to_string() != ">")
            .filter(|t| matches!(t, TokenTree::Ident(_)))
            .map(|t| t.to_string())
            .collect();
    }
    let mut fields = Vec::new();
    for token in tokens {
        if let TokenTree::Group(group) = token {
            if is_struct && group.delimiter() == Delimiter::Brace {
                fields = field_names(group.stream());
            }
        }
    }
    (name, generics, fields)
}

/// A field's name stands before a colon that is not part of a path or of a type.
fn field_names(body: TokenStream) -> Vec<String> {
    let tokens: Vec<String> = body.into_iter().map(|t| t.to_string()).collect();
    let mut names = Vec::new();
    let mut depth = 0;
    let mut in_type = false;
    for (i, token) in tokens.iter().enumerate() {
        match token.as_str() {
            "<" => depth += 1,
            ">" => depth -= 1,
            "," if depth == 0 => in_type = false,
            ":" if !in_type => {
                names.push(tokens[i - 1].clone());
                in_type = true;
            }
            _ => {}
        }
    }
    names
}

fn implement(
    trait_name: &str,
    bound: &str,
    name: &str,
    generics: &[String],
    body: &str,
) -> TokenStream {
    let bounded: Vec<_> = generics.iter().map(|g| format!("{}: {}", g, bound)).collect();
    let head =
        format!("impl<{}> {} for {}<{}>", bounded.join(","), trait_name, name, generics.join(","));
    format!("{} {{ {} }}", head, body).parse().unwrap()
}

#[proc_macro_derive(Serialize, attributes(serde))]
pub fn serialize(input: TokenStream) -> TokenStream {
    let (name, generics, _) = parts(input);
    implement("serde::Serialize", "Sized", &name, &generics, "")
}

/// Nothing that the oracle does reads one of the originals' types from bytes.
#[proc_macro_derive(Deserialize, attributes(serde))]
pub fn deserialize(_: TokenStream) -> TokenStream {
    TokenStream::new()
}

#[proc_macro_derive(Fail, attributes(fail))]
pub fn fail(input: TokenStream) -> TokenStream {
    let (name, generics, _) = parts(input);
    implement("failure::Fail", "Sized", &name, &generics, "")
}

/// Nothing is drawn at random.
#[proc_macro_derive(Rand)]
pub fn rand(_: TokenStream) -> TokenStream {
    TokenStream::new()
}

/// `Debug` in the form of the standard derive. Enums get none: nothing prints the one that asks.
#[proc_macro_derive(Derivative, attributes(derivative))]
pub fn derivative(input: TokenStream) -> TokenStream {
    let (name, generics, fields) = parts(input);
    if fields.is_empty() {
        return TokenStream::new();
    }
    let fields: String = fields.iter().map(|f| format!(".field({:?}, &self.{})", f, f)).collect();
    let body = format!(
        "fn fmt(&self, f: &mut std::fmt::Formatter<'_>) -> std::fmt::Result {{
            f.debug_struct({:?}){}.finish() }}",
        name, fields
    );
    implement("std::fmt::Debug", "std::fmt::Debug", &name, &generics, &body)
}
