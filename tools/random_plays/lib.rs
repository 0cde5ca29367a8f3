//! Random plans on boards, played by random honest schedules over both buses. tools/random-plays adds this crate to a copy of the tree.
#![tactic(auto)]

#[cfg(test)]
mod tests;
