//! Deterministic test matter for comparison drivers: languages, networks, matrices, tables,
//! step lists and problem files, sound and damaged, all drawn from one seeded source.

mod dice;
mod files;
mod languages;
mod networks;

pub use dice::Dice;
pub use files::{damaged_file, sound_file, sound_parts, FileParts};
pub use languages::{any_language, cancelling_language, damaged_language, lawful_language};
pub use networks::{
    best_words, damage_entry, damaged_step_list, fresh_words, mapping_table, network,
    random_matrix, reached_matrix, routing_case, stale_matrix, step_list, stretches, RoutingCase,
    Spread, Standing,
};
