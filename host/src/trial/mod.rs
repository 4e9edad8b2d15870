//! Drivers that turn document 01's demands on any implementation of the calls: on the reference alone, and on `Both`
//! the reference and another, where each answer, count, word and byte of theirs is compared.
pub mod adversary;
pub mod alike;
pub mod both;
pub mod cases;
pub mod cuts;
pub mod damage;
pub mod lists;
pub mod program;
pub mod refusals;
pub mod run;
pub mod runs;
pub mod settings;
pub mod universe;

/// One test for each driver, over the implementation that the expression gives.
#[macro_export]
macro_rules! trials {
    ($calls:expr; $($name:ident: $driver:path),* $(,)?) => {
        $(
            #[test]
            fn $name() {
                let settings = $crate::trial::settings::Settings::of(concat!(module_path!(), "::", stringify!($name)));
                $driver(&$calls, &settings);
            }
        )*
    };
    ($calls:expr) => {
        $crate::trials! { $calls;
            case_p1_first_put: $crate::trial::cases::p1,
            case_p2_p3_fourteen_puts: $crate::trial::cases::p2_p3,
            case_p4_put_into_full_leaf: $crate::trial::cases::p4,
            case_p5_put_below_the_moved: $crate::trial::cases::p5,
            case_p6_no_block_left: $crate::trial::cases::p6,
            case_p7_del_frees_a_leaf: $crate::trial::cases::p7,
            case_p8_sibling_bounds: $crate::trial::cases::p8,
            case_p9_extreme_keys: $crate::trial::cases::p9,
            case_p10_cut_of_nothing: $crate::trial::cases::p10,
            case_settled_by_an_earlier_write_back: $crate::trial::cases::settled_by_an_earlier_write_back,
            case_list_room: $crate::trial::cases::list_room,
            case_most_steps: $crate::trial::cases::most_steps,
            runs_on_few_blocks: $crate::trial::runs::few_blocks,
            runs_on_some_blocks: $crate::trial::runs::some_blocks,
            runs_on_many_blocks: $crate::trial::runs::many_blocks,
            cuts_of_every_small_list: $crate::trial::runs::every_cut,
            wear_by_an_adversary: $crate::trial::adversary::wear_out,
            damage_random_bytes: $crate::trial::damage::random_bytes,
            damage_single_bits: $crate::trial::damage::single_bits,
            damage_each_clause: $crate::trial::damage::each_clause,
            refusals_of_reads_and_changes: $crate::trial::refusals::reads_and_changes,
            refusals_of_run_and_cut: $crate::trial::refusals::run_and_cut,
            lists_of_any_steps: $crate::trial::lists::any_steps,
            alike_images: $crate::trial::alike::alike_images,
        }
    };
}
