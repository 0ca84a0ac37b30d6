//! The modules `audit`, `indexed_mapper` and `model` of veritasm, unchanged, over a stand-in for its `error`.
#![allow(dead_code)]

pub mod error;

include!(concat!(env!("OUT_DIR"), "/modules.rs"));
