//! The derive of the byte layout's stand-in. It knows plain structs with named fields, which is all that the original uses.

use proc_macro::{Delimiter, TokenStream, TokenTree};

struct Field {
    name: String,
    kind: String,
}

#[proc_macro_derive(ByteStruct, attributes(byte_struct_le))]
pub fn byte_struct(item: TokenStream) -> TokenStream {
    let (name, body) = struct_of(item);
    let fields = fields_of(body);
    let each = |part: &dyn Fn(&Field) -> String| fields.iter().map(part).collect::<String>();
    let lens = each(&|f| format!(" + <{} as byte_struct::LittleEndian>::LEN", f.kind));
    let puts = each(&|f| {
        format!(
            "byte_struct::LittleEndian::put(&self.{0}, &mut bytes[at..]);
             at += <{1} as byte_struct::LittleEndian>::LEN;",
            f.name, f.kind
        )
    });
    let gets = each(&|f| {
        format!(
            "let {0} = <{1} as byte_struct::LittleEndian>::get(&bytes[at..]);
             at += <{1} as byte_struct::LittleEndian>::LEN;",
            f.name, f.kind
        )
    });
    let names = each(&|f| format!("{}, ", f.name));
    format!(
        "impl byte_struct::ByteStruct for {name} {{
            const BYTE_LEN: usize = 0{lens};
            #[inline]
            fn write_bytes(&self, bytes: &mut [u8]) {{ let mut at = 0; {puts} let _ = at; }}
            #[inline]
            fn read_bytes(bytes: &[u8]) -> Self {{ let mut at = 0; {gets} let _ = at; {name} {{ {names} }} }}
        }}
        impl byte_struct::LittleEndian for {name} {{
            const LEN: usize = <{name} as byte_struct::ByteStruct>::BYTE_LEN;
            #[inline]
            fn put(&self, bytes: &mut [u8]) {{ byte_struct::ByteStruct::write_bytes(self, bytes) }}
            #[inline]
            fn get(bytes: &[u8]) -> Self {{ byte_struct::ByteStruct::read_bytes(bytes) }}
        }}"
    )
    .parse()
    .unwrap()
}

/// The struct's name and what stands between its braces.
fn struct_of(item: TokenStream) -> (String, TokenStream) {
    let mut tokens = item.into_iter();
    let mut name = None;
    while let Some(token) = tokens.next() {
        match token {
            TokenTree::Ident(word) if word.to_string() == "struct" => {
                name = tokens.next().map(|t| t.to_string());
            }
            TokenTree::Group(group) if group.delimiter() == Delimiter::Brace => {
                return (name.expect("a struct's name"), group.stream());
            }
            _ => {}
        }
    }
    panic!("a struct with named fields is needed");
}

/// The fields, in order: `pub` and attributes are passed over.
fn fields_of(body: TokenStream) -> Vec<Field> {
    let mut fields = vec![];
    let (mut name, mut kind, mut in_kind) = (String::new(), String::new(), false);
    for token in body {
        match &token {
            TokenTree::Punct(p) if p.as_char() == ',' => {
                fields.push(Field { name: name.clone(), kind: kind.clone() });
                (kind, in_kind) = (String::new(), false);
            }
            TokenTree::Punct(p) if p.as_char() == ':' && !in_kind => in_kind = true,
            TokenTree::Ident(word) if !in_kind => name = word.to_string(),
            _ if in_kind => kind += &format!("{token} "),
            _ => {}
        }
    }
    if in_kind {
        fields.push(Field { name, kind });
    }
    fields
}
