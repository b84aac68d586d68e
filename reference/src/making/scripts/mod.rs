//! The cases of `monitor_cases` and `network_cases`, whose frames are scripts: shared ones, and their own.

pub mod card_cases;
pub mod count_forms;
pub mod counting_pairs;
pub mod counting_preconditions;
pub mod entry_clauses;
pub mod entry_positions;
pub mod judged_counts;
pub mod monitor_cases;
pub mod monitor_clauses;
pub mod network_cases;
pub mod network_clauses;
pub mod random_script;
pub mod script;
pub mod script_ends;
pub mod settling;
pub mod shared_cases;
pub mod shared_clauses;
pub mod tried_counts;
pub mod walk;
pub mod wide_cases;
