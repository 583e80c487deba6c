//! A second implementation of X translation tables, written from document 01 ("01" below),
//! requests of document 02 ("02"), the readings of both and Appendix B ("001"), as
//! plainly as they read.
//!
//! Each module holds one section, or one part of a section, of 01, or what a request adds.

pub mod calls;
pub mod compiling;
pub mod counts;
pub mod details;
pub mod keyboard;
pub mod keysyms;
pub mod layout;
pub mod limits;
pub mod merging;
pub mod modifiers;
pub mod names;
pub mod numbers;
pub mod records;
pub mod resolving;
pub mod selection;
pub mod table;
pub mod text;
pub mod writing;

pub mod checks;
pub mod generate;
pub mod json;
pub mod random;
pub mod statistics;
pub mod vectors;

pub use calls::{name, parameter, Part};
pub use compiling::compile;
pub use merging::merge;
pub use numbers::{Number, Refusal};
pub use records::{read_record, Event};
pub use resolving::Maps;
pub use selection::{BoundedMatcher, Matcher};
pub use table::{Call, Directive, EventSpec, Production, Span, Table};
pub use writing::write;
