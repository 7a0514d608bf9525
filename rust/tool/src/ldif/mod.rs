//! LDIF (RFC 2849) of attributeSchema and classSchema entries, as Active
//! Directory and Samba write them: taken in, and written.

mod base64;
mod drafts;
mod entry;
mod export;
mod import;
mod only;
mod records;

pub use export::exported;
pub use import::{Import, import};
