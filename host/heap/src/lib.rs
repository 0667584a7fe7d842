//! A made heap of sand, and the colours and the file format in which maps are drawn; the program draws with them too.
pub mod colours;
pub mod png;
pub mod scene;
