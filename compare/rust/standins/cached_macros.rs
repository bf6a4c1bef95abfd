//! Stands in for the attribute `cached` of the crate `cached`: the function looks its arguments up first. For private functions without
//! generics whose arguments are names with types that hold no comma.
extern crate proc_macro;
use proc_macro::{Delimiter, TokenStream, TokenTree};

#[proc_macro_attribute]
pub fn cached(size: TokenStream, function: TokenStream) -> TokenStream {
    let max_size = size.to_string().replace("max_size", "").replace('=', "");
    let tokens: Vec<TokenTree> = function.into_iter().collect();
    let arguments = tokens.iter().position(is_arguments).expect("a function");
    let [TokenTree::Ident(name), TokenTree::Group(list), .., TokenTree::Group(body)] =
        &tokens[arguments - 1..]
    else {
        panic!("a function with a body");
    };
    let answer: TokenStream = tokens[arguments + 3..tokens.len() - 1]
        .iter()
        .cloned()
        .collect();
    let (names, types) = named(list.stream());
    format!(
        "fn {name}{list} -> {answer} {{
            static CACHE: std::sync::LazyLock<::cached::Cache<({types}), {answer}>> =
                std::sync::LazyLock::new(|| ::cached::Cache::new({max_size}));
            CACHE.get_or(({names}), |({names})| {body})
        }}"
    )
    .parse()
    .expect("a function")
}

fn is_arguments(token: &TokenTree) -> bool {
    matches!(token, TokenTree::Group(group) if group.delimiter() == Delimiter::Parenthesis)
}

/// The names and the types of a list of arguments, each followed by a comma.
fn named(list: TokenStream) -> (String, String) {
    let list = list.to_string();
    let parts = list.split(',').filter_map(|part| part.split_once(':'));
    parts.fold(
        (String::new(), String::new()),
        |(names, types), (name, of)| (names + name + ",", types + of + ","),
    )
}
