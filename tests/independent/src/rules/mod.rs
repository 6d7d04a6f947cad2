//! The rules of document 01: what is answered, the kinds, reading, writing;
//! of request 05: vendor information; of request 07: an index; of request 08: grouped
//! sheets; of request 09: relay information; of request 11: captures; of request 13: the
//! reply profile; and of request 14: classless routes.

#![forbid(unsafe_code)]

pub mod answers;
pub mod captures;
pub mod groups;
pub mod index;
pub mod kinds;
pub mod profile;
pub mod reading;
pub mod relay;
pub mod routes;
pub mod vendor;
pub mod writing;
