//! Supplied: the Rust sources come without their lib.rs. It names the 15 files and re-exports what they
//! ask of `crate::` (`ContainerError`, `CharWidth`, `STRING_HEADER_BYTES`).
#![allow(dead_code)]

pub mod char_width;
pub mod code_section;
pub mod const_type;
pub mod constant_pool;
pub mod container;
pub mod container_ref;
pub mod debug_section;
pub mod error;
pub mod header;
pub mod id_types;
pub mod integrity;
pub mod string_layout;
pub mod task_table;
pub mod task_type;
pub mod type_section;

pub use char_width::CharWidth;
pub use container::Container;
pub use container_ref::ContainerRef;
pub use error::ContainerError;
pub use string_layout::STRING_HEADER_BYTES;
