//! Tests of the model: the papers' examples, and the rule and demand 3 on random graphs.

mod bounds;
mod by_rule;
mod caps;
mod check_sheet;
mod crew;
mod journal;
mod journal_numbers;
mod journal_ranks;
mod marked;
mod plan_cells;
mod poster;
mod ranks;
mod reach;
mod read_list;
mod refusals;
mod rule;
mod sheet;
mod shelf;
mod shelf_refusals;
mod support;
