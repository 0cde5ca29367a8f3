//! Random scripts for two workers and a scanner that share a board. tools/random-histories adds this crate to a copy of the tree.
#![tactic(auto)]

#[cfg(test)]
mod tests;
