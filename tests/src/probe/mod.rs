//! The inner functions, reached through libprobe.a. A new one is a new module with a `PART`, and a
//! line in `ALL`.

use crate::parts::Part;

mod door;
mod euclid;
mod factors;
mod inverse;
mod prime;
mod rounds;

pub const ALL: [Part; 6] =
    [prime::PART, factors::PART, factors::LISTS, inverse::PART, rounds::PART, euclid::PART];
