//! An independent reference for crash totals of two-lane rural projects.
//!
//! Written from document 01 (`01-scope.md`), the report it names,
//! FHWA-RD-99-207, and document 02 (`02-change-requests.md`), whose sixth
//! request adds edition 2, Chapter 10 of the Highway Safety Manual. It shares no
//! code with the engine, so agreement of the two says something about both.
//! Arithmetic is exact throughout: natural numbers of any size and fractions of
//! two of them.
//!
//! - numbers: [`natural`], [`rational`], [`sum`]
//! - brackets, apart from roads: [`estimates`], [`figures`]
//! - the file: [`rules`], [`record`], [`project`], [`lines`]
//! - the road model: [`model`], [`factors`], [`prediction`], [`stored`]
//! - the report: [`report`], [`checker`]
//! - the tables that FHWA-RD-99-207 prints: [`published`]; sample problems of
//!   the Highway Safety Manual: [`manual`]; figures worked by hand from
//!   documents 01 and 02: [`worked`]
//! - generated inputs and programs: [`generate`], [`program`]

#![forbid(unsafe_code)]

pub mod checker;
pub mod estimates;
pub mod factors;
pub mod figures;
pub mod generate;
pub mod lines;
pub mod manual;
pub mod model;
pub mod natural;
pub mod prediction;
pub mod program;
pub mod project;
pub mod published;
pub mod rational;
pub mod record;
pub mod report;
pub mod rules;
pub mod stored;
pub mod sum;
pub mod worked;
