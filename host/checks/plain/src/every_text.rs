//! Every text of small universes, and what they are when something is
//! changed in them: for comparing readers place by place.

mod damaged;
mod listed;
mod universes;

pub use damaged::damaged;
pub use listed::Texts;
pub use universes::universes;
