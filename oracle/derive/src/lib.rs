//! Stands for the crate `grib_template_derive`: the derive macros `TryFromSlice`, `WriteToBuffer` and `Dump`.
//!
//! Leans on them: the sections and templates of `def/grib2.rs` and `def/grib2/template5.rs`, which have to compile.
//! No door reads or writes a whole section, so an implementation here is an empty one: it leaves every function of
//! its trait as `src/shims/template_helpers.rs` has it, and that is a panic.

use proc_macro::{Delimiter, TokenStream, TokenTree};

#[proc_macro_derive(TryFromSlice, attributes(grib_template))]
pub fn try_from_slice(item: TokenStream) -> TokenStream {
    empty_implementation("crate::TryFromSlice", item)
}

#[proc_macro_derive(WriteToBuffer, attributes(grib_template))]
pub fn write_to_buffer(item: TokenStream) -> TokenStream {
    empty_implementation("crate::WriteToBuffer", item)
}

#[proc_macro_derive(Dump, attributes(dump))]
pub fn dump(item: TokenStream) -> TokenStream {
    empty_implementation("crate::Dump", item)
}

/// Between a type's name and its body stand its parameters, which in the text have no bounds, and its `where`.
fn empty_implementation(of: &str, item: TokenStream) -> TokenStream {
    let is_word = |token: &TokenTree, word: &str| token.to_string() == word;
    let mut tokens = item.into_iter().skip_while(|token| !is_word(token, "struct") && !is_word(token, "enum")).skip(1);
    let name = tokens.next().expect("a name follows `struct` or `enum`");
    let head: Vec<TokenTree> = tokens
        .take_while(|token| match token {
            TokenTree::Group(body) => body.delimiter() == Delimiter::None,
            _ => !is_word(token, ";"),
        })
        .collect();
    let condition = head.iter().position(|token| is_word(token, "where"));
    let (parameters, condition) = head.split_at(condition.unwrap_or(head.len()));
    let text = |tokens: &[TokenTree]| TokenStream::from_iter(tokens.iter().cloned()).to_string();
    let (parameters, condition) = (text(parameters), text(condition));
    format!("impl {parameters} {of} for {name} {parameters} {condition} {{}}")
        .parse()
        .expect("an empty implementation is well formed")
}
