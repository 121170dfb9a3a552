//! The crate `thiserror`: of its derive only the two conversions that the source's reader leans on.

extern crate proc_macro;

use proc_macro::TokenStream;

#[proc_macro_derive(Error, attributes(error, from))]
pub fn derive(_: TokenStream) -> TokenStream {
    "impl From<std::io::Error> for Error { fn from(e: std::io::Error) -> Self { Error::Io(e) } }
     impl From<crate::sofa::Error> for Error { fn from(e: crate::sofa::Error) -> Self { Error::Parse(e) } }"
        .parse()
        .unwrap()
}
