//! The desk's program: a card's directory in words. What is accepted, written and linked is the proved library's
//! answer; this walks an accepted book and shows it.

pub mod arguments;
pub mod book;
pub mod card;
pub mod commands;
pub mod compare;
pub mod condition;
pub mod edit;
pub mod element;
pub mod error;
pub mod escape;
pub mod fields;
pub mod files;
pub mod help;
pub mod json;
pub mod layout;
pub mod links;
pub mod parts;
pub mod record_json;
pub mod refusal;
pub mod show;
pub mod show_json;
pub mod table;
pub mod values;
pub mod view;
pub mod words;
