//! `derive(Builder)`: a builder whose `build` gives each field of a `struct Name<T: FloatT>` its default.
use proc_macro::{TokenStream, TokenTree};

#[proc_macro_derive(Builder, attributes(builder))]
pub fn builder(item: TokenStream) -> TokenStream {
    let item: Vec<TokenTree> = item.into_iter().collect();
    let keyword = item.iter().position(|t| t.to_string() == "struct").unwrap();
    let name = item[keyword + 1].to_string();
    let Some(TokenTree::Group(body)) = item.last() else { panic!("no body") };

    let body: Vec<TokenTree> = body.stream().into_iter().collect();
    let mut fields = String::new();
    let mut default = String::new();
    for (i, token) in body.iter().enumerate() {
        match token {
            TokenTree::Group(attribute) if attribute.to_string().starts_with("[builder") => {
                default = attribute.to_string().split('"').nth(1).unwrap().to_string();
            }
            TokenTree::Ident(word) if word.to_string() == "pub" => {
                fields += &format!("{}: {default},", body[i + 1]);
            }
            _ => {}
        }
    }
    format!(
        "pub struct {name}Builder<T>(std::marker::PhantomData<T>);
         impl<T> Default for {name}Builder<T> {{ fn default() -> Self {{ Self(Default::default()) }} }}
         impl<T: FloatT> {name}Builder<T> {{
             pub fn build(&self) -> Result<{name}<T>, std::convert::Infallible> {{ Ok({name} {{ {fields} }}) }}
         }}"
    )
    .parse()
    .unwrap()
}
