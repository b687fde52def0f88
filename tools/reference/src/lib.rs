//! A reference model of packets, blocks, decoders and boards as the documents in `docs` describe them, and the
//! comparison of other programs with it.

pub mod bench;
pub mod block;
pub mod board;
pub mod compare;
pub mod decoder;
pub mod listing;
pub mod packet;
pub mod refusal;
pub mod script;
pub mod twin;
