//! Three unverified planners of the proved one's method, written for speed: they differ in how the pool is kept while a
//! call works. `simple` walks it several times a step; `lazy` finds the same nodes without these walks, as the proved
//! one does, and `abreast` with all the children's chains at once. Reports and pools are those of the proved planner,
//! for jobs that pass its checks, without landing charges and pairs, of days that end at home. They check nothing of a
//! job and are here to be timed and compared.

mod lazy;
mod node;
mod run;
mod simple;

pub use lazy::{plan as lazy, plan_abreast as abreast, plan_with as lazy_with};
pub use node::{Job, Record, Rows};
pub use run::{Ended, Until};
pub use simple::plan as simple;
