//! Call scripts: lists of calls as text, run by the proved library. docs/SCRIPTS.md says what the lines and the answers
//! are.
//!
//! A script is taken as its bytes come ([`lines`]), each line is a call or is about the record ([`calls`], [`record`]),
//! calls one after the other run as a list ([`list`]), and what they answer is written ([`answers`]). Those of the 82C53
//! and of the board run by themselves ([`board`]), and so do those that save and load a checkpoint ([`checkpoint`]) and the
//! one that asks for a speed ([`speed`]). [`script`] joins these.
pub mod answers;
pub mod board;
pub mod calls;
pub mod checkpoint;
pub mod lines;
pub mod list;
pub mod record;
pub mod script;
pub mod speed;
