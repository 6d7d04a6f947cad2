//! The differential tester.

pub mod broken;
pub mod captures;
pub mod compare;
mod counts;
pub mod edges;
mod groups;
mod index;
mod lent;
pub mod library;
pub mod lines;
mod messages;
mod relay;
mod replies;
mod rng;
mod routes;
mod sheets;
pub mod sides;
pub mod tallies;
mod values;
mod vendor;
