//! Stand-in for `serde`: a derive that reads a struct from a table of the stand-in for `toml`, with `#[serde(default)]`.

use proc_macro::{TokenStream, TokenTree};

#[proc_macro_derive(Deserialize, attributes(serde))]
pub fn deserialize(item: TokenStream) -> TokenStream {
    let mut tokens = item
        .into_iter()
        .skip_while(|token| token.to_string() != "struct");
    let name = tokens.nth(1).expect("the struct's name");
    let fields = tokens.find_map(|token| match token {
        TokenTree::Group(group) => Some(group.stream()),
        _ => None,
    });
    let tokens: Vec<_> = fields.expect("named fields").into_iter().collect();
    let fields = tokens.split(|token| token.to_string() == ",");
    let fields: String = fields
        .filter(|field| !field.is_empty())
        .map(field)
        .collect();
    format!(
        "impl ::toml::Read for {name} {{
            fn read(table: &::toml::Table) -> Result<Self, ::toml::Error> {{ Ok(Self {{ {fields} }}) }}
        }}"
    )
    .parse()
    .expect("an implementation")
}

/// A field's initializer: its name stands before the colon, what it is without a value in its attribute.
fn field(tokens: &[TokenTree]) -> String {
    let colon = tokens.iter().position(|token| token.to_string() == ":");
    let name = &tokens[colon.expect("a field's type") - 1];
    let attribute = tokens.get(1).filter(|_| tokens[0].to_string() == "#");
    let attribute = attribute.map(|group| group.to_string()).unwrap_or_default();
    match (attribute.split('"').nth(1), attribute.contains("default")) {
        (Some(function), _) => {
            format!("{name}: ::toml::optional(table, \"{name}\", {function})?,")
        }
        (None, true) => {
            format!("{name}: ::toml::optional(table, \"{name}\", Default::default)?,")
        }
        (None, false) => format!("{name}: ::toml::required(table, \"{name}\")?,"),
    }
}
