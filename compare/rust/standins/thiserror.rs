//! Stands in for the crate `thiserror`: an enum that derives `Error` is an error, and is made from the types marked `#[from]`. Error
//! texts are not compared: the text is the `Debug` form, not the one in `#[error(..)]`.
extern crate proc_macro;
use proc_macro::{Delimiter, Group, TokenStream, TokenTree};

#[proc_macro_derive(Error, attributes(error, from))]
pub fn error(item: TokenStream) -> TokenStream {
    let tokens: Vec<TokenTree> = item.into_iter().collect();
    let [.., TokenTree::Ident(name), TokenTree::Group(variants)] = tokens.as_slice() else {
        panic!("an enum without generics");
    };
    let mut code = format!(
        "impl std::fmt::Display for {name} {{
            fn fmt(&self, f: &mut std::fmt::Formatter<'_>) -> std::fmt::Result {{
                std::fmt::Debug::fmt(self, f)
            }}
        }}
        impl std::error::Error for {name} {{}}"
    );
    for (variant, cause) in causes(variants) {
        code += &format!(
            "impl From<{cause}> for {name} {{
                fn from(cause: {cause}) -> Self {{
                    Self::{variant}(cause)
                }}
            }}"
        );
    }
    code.parse().expect("implementations")
}

/// The variants `Name(#[from] Type)`, as names and types.
fn causes(variants: &Group) -> Vec<(String, TokenStream)> {
    let tokens: Vec<TokenTree> = variants.stream().into_iter().collect();
    let pairs = tokens.windows(2).filter_map(|pair| match pair {
        [TokenTree::Ident(variant), TokenTree::Group(fields)]
            if fields.delimiter() == Delimiter::Parenthesis =>
        {
            let fields: Vec<TokenTree> = fields.stream().into_iter().collect();
            let [TokenTree::Punct(_), TokenTree::Group(mark), cause @ ..] = fields.as_slice()
            else {
                return None;
            };
            let cause = cause.iter().cloned().collect();
            (mark.stream().to_string() == "from").then(|| (variant.to_string(), cause))
        }
        _ => None,
    });
    pairs.collect()
}
