//! Wrong implementations, each of which a trial must catch, and for the reason named: a trial that lets one pass is no test.
mod wrong;

use stringhut::answers::{Found, Listed, Made, Recovered};
use stringhut::reference::image::{blocks, sound_chain};
use stringhut::reference::leaf::fingerprint;
use stringhut::reference::steps::{MOST_STEPS, Step, first_steps};
use stringhut::reference::{Reference, memory, program};
use stringhut::traditional::{self, Packing};
use stringhut::trial::settings::Settings;
use stringhut::trial::{adversary, both::Both, cases, damage, lists, program as programs, refusals, runs};
use stringhut::{Calls, Refusal};
use wrong::*;

/// The trials of `trials!(Reference)`: nothing to compare with but the map, the walk and document 01's numbers.
fn alone(wrong: Wrong) -> impl Calls {
    wrong
}

/// The trials of `trials!(Both::new(Reference, Board))`.
fn beside_the_reference(wrong: Wrong) -> impl Calls {
    Both::new(Reference, wrong)
}

macro_rules! caught {
    ($with:ident; $($name:ident by $trial:path, $reason:literal: $call:ident = $wrong:expr;)*) => {
        $(
            #[test]
            #[should_panic(expected = $reason)]
            fn $name() {
                let calls = $with(Wrong { $call: $wrong, ..RIGHT });
                $trial(&calls, &Settings::of(stringify!($name)).quiet());
            }
        )*
    };
}

caught! { alone;
    find_another_value by runs::few_blocks, "find":
        find = |image, key| Found { value: 0, ..Reference.find(image, key) };
    find_an_absent_key by runs::few_blocks, "find":
        find = |image, key| find_with(|_, slot, _| slot == 0, image, key);
    find_by_fingerprint_alone by runs::few_blocks, "find":
        find = |image, key| find_with(|leaf, slot, key| {
            leaf.occupied(slot) && leaf.fingerprint(slot) == fingerprint(key)
        }, image, key);
    find_in_a_vacant_slot by runs::few_blocks, "find":
        find = |image, key| find_with(|leaf, slot, key| leaf.key(slot) == key, image, key);
    find_in_no_sound_image by damage::each_clause, "find in an image that is not sound":
        find = |image, key| match Reference.find(image, key) {
            Found { answer: 3, .. } => Err(Refusal::KeyAbsent).into(),
            found => found,
        };
    find_tells_a_value_in_refusing by refusals::reads_and_changes, "find":
        find = |image, key| match Reference.find(image, key) {
            Found { answer: 1, .. } => Found { answer: 1, value: 1 },
            found => found,
        };
}

caught! { alone;
    put_tells_one_line_write_more by runs::few_blocks, "the counts told are the list's own":
        put = |image, list, key, value| told(Reference.put(image, list, key, value), |made| made.line_writes += 1);
    put_tells_one_word_write_less by runs::few_blocks, "the counts told are the list's own":
        put = |image, list, key, value| told(Reference.put(image, list, key, value), |made| made.word_writes -= 1);
    put_tells_one_step_less by runs::few_blocks, "words past the list stay":
        put = |image, list, key, value| told(Reference.put(image, list, key, value), |made| made.steps -= 1);
    put_tells_line_writes_in_refusing by refusals::reads_and_changes, "a refusal tells 0":
        put = |image, list, key, value| match Reference.put(image, list, key, value) {
            Made { answer: 6, .. } => Made { answer: 6, line_writes: 1, ..Made::default() },
            made => made,
        };
    put_writes_in_refusing by refusals::reads_and_changes, "a refusal changes no buffer":
        put = |image, list, key, value| {
            let made = Reference.put(image, list, key, value);
            if made.answer == 6 { list[0] = 0 }
            made
        };
    put_writes_past_the_list by runs::few_blocks, "words past the list stay":
        put = |image, list, key, value| {
            let made = Reference.put(image, list, key, value);
            if made.answer == 0 { list[2 * made.steps as usize..].fill(0) }
            made
        };
    put_takes_111_words by refusals::reads_and_changes, "room 111":
        put = |image, list, key, value| match list.len() {
            111 => Reference.put(image, &mut [0; 112], key, value),
            _ => Reference.put(image, list, key, value),
        };
    put_refuses_all by runs::few_blocks, "the answer of Put":
        put = |image, list, key, value| put_unless(|_, _| true, image, list, key, value);
    put_refuses_where_all_are_chained by runs::few_blocks, "the answer of Put":
        put = |image, list, key, value| put_unless(|image, _| {
            sound_chain(image).is_some_and(|chain| chain.len() == blocks(image))
        }, image, list, key, value);
    put_refuses_a_full_leaf by runs::few_blocks, "the answer of Put":
        put = |image, list, key, value| put_unless(|_, steps| steps >= 42, image, list, key, value);
    put_takes_no_freed_block_again by runs::few_blocks, "the answer of Put":
        put = |image, list, key, value| put_unless(|image, steps| {
            let last = blocks(image) - 1;
            steps >= 42 && sound_chain(image).is_some_and(|chain| chain.iter().any(|chained| chained.block == last))
        }, image, list, key, value);
    put_takes_a_present_key by runs::few_blocks, "the answer of Put":
        put = |image, list, key, value| match Reference.put(image, list, key, value) {
            Made { answer: 4, .. } => Made::default(),
            made => made,
        };
    put_in_no_sound_image by damage::each_clause, "changes of an image that is not sound":
        put = |image, list, key, value| match Reference.put(image, list, key, value) {
            Made { answer: 3, .. } => Err(Refusal::KeyPresent).into(),
            made => made,
        };
}

caught! { alone;
    put_of_an_empty_list by runs::every_cut, "all steps taken and settled":
        put = |image, list, key, value| put_with(Vec::clear, image, list, key, value);
    put_of_another_value by runs::every_cut, "the cut of":
        put = |image, list, key, value| Reference.put(image, list, key, !value);
    put_without_its_last_store by runs::few_blocks, "the map after":
        put = |image, list, key, value| put_with(without_last_store, image, list, key, value);
    put_without_its_last_fence by runs::every_cut, "all steps taken and settled":
        put = |image, list, key, value| put_with(|steps| steps.truncate(steps.len() - 1), image, list, key, value);
    put_without_its_first_write_back by runs::every_cut, "all steps taken and settled":
        put = |image, list, key, value| put_with(without_first_write_back, image, list, key, value);
    put_with_bare_fences by runs::every_cut, "all steps taken and settled":
        put = |image, list, key, value| put_with(bare_fences, image, list, key, value);
    put_with_its_stores_first by runs::every_cut, "the cut of":
        put = |image, list, key, value| put_with(|steps| stores_first(steps), image, list, key, value);
    put_with_word_0_before_word_1 by runs::every_cut, "left no sound image":
        put = |image, list, key, value| put_with(|steps| word_0_first(steps), image, list, key, value);
    put_with_the_header_before_the_copies by runs::every_cut, "the cut of":
        put = |image, list, key, value| put_with(|steps| header_first(steps), image, list, key, value);
    put_before_the_header_is_switched by runs::every_cut, "the cut of":
        put = |image, list, key, value| put_with(|steps| put_before_the_switch(steps), image, list, key, value);
    put_through_the_active_sibling by runs::every_cut, "left no sound image":
        put = |image, list, key, value| {
            put_with(|steps| linked_through_the_active_sibling(steps), image, list, key, value)
        };
    put_with_six_more_line_writes by runs::few_blocks, "demand 3":
        put = |image, list, key, value| put_with(six_more_line_writes, image, list, key, value);
    wear_by_six_more_line_writes by adversary::wear_out, "demand 3":
        put = |image, list, key, value| put_with(six_more_line_writes, image, list, key, value);
    wear_without_a_put by adversary::wear_out, "the adversary could call":
        put = |image, list, key, value| put_unless(|_, _| true, image, list, key, value);
    put_that_clears_a_moved_fingerprint by cases::p2_p3, "the header after the first moves":
        put = |image, list, key, value| put_with(|steps| cleared_in_word_0(steps, 8..=14), image, list, key, value);
    split_that_clears_a_moved_fingerprint by cases::p4, "the moved entries' fingerprints are kept":
        put = |image, list, key, value| put_with(|steps| cleared_in_word_0(steps, 42..=42), image, list, key, value);
    put_without_moving by cases::p2_p3, "put 4":
        put = |image, list, key, value| edited(image, list, |list| Reference.put(image, list, key, value), |steps| {
            *steps = traditional::put_steps(image, Packing::FromTheEnd, key, value).expect("accepted");
        });
}

caught! { alone;
    set_of_another_value by runs::every_cut, "the cut of":
        set = |image, list, key, value| Reference.set(image, list, key, !value);
    set_of_an_absent_key by runs::few_blocks, "the answer of Set":
        set = |image, list, key, value| match Reference.set(image, list, key, value) {
            Made { answer: 5, .. } => Made::default(),
            made => made,
        };
    set_tells_no_line_write by runs::few_blocks, "the counts told are the list's own":
        set = |image, list, key, value| told(Reference.set(image, list, key, value), |made| made.line_writes = 0);
    set_that_writes_back_line_0 by runs::few_blocks, "the line of the store is written back":
        set = |image, list, key, value| edited(image, list, |list| Reference.set(image, list, key, value), |steps| {
            steps[1] = Step::WriteBack { line: 0 };
        });
    del_of_an_empty_list by runs::few_blocks, "Del has three steps":
        del = |image, list, key| del_with(Vec::clear, image, list, key);
    del_that_drops_the_rest_of_the_chain by runs::every_cut, "left neither map":
        del = |image, list, key| del_with(|steps| match &mut steps[0] {
            Step::Store { place, value } if *place % 256 >= 240 => *value = 0,
            _ => (),
        }, image, list, key);
    del_through_the_inactive_sibling by runs::every_cut, "all steps taken and settled":
        del = |image, list, key| del_with(|steps| match &mut steps[0] {
            Step::Store { place, .. } if *place % 256 >= 240 => *place ^= 8,
            _ => (),
        }, image, list, key);
    del_that_clears_a_fingerprint by runs::few_blocks, "keeps the fingerprints":
        del = |image, list, key| del_with(|steps| match &mut steps[0] {
            Step::Store { place, value } if *place % 256 == 0 => *value &= !0xFF_0000,
            _ => (),
        }, image, list, key);
    del_takes_111_words by refusals::reads_and_changes, "room 111":
        del = |image, list, key| match list.len() {
            111 => Reference.del(image, &mut [0; 112], key),
            _ => Reference.del(image, list, key),
        };
}

caught! { alone;
    listing_of_nothing by runs::few_blocks, "listing from":
        listing = |image, from, _, _| Reference.listing(image, from, &mut [], &mut []);
    listing_of_stale_buffers by runs::few_blocks, "keys and values, rising":
        listing = |image, from, keys, values| {
            Reference.listing(image, from, &mut keys.to_vec(), &mut values.to_vec())
        };
    listing_of_stale_values by runs::few_blocks, "keys and values, rising":
        listing = |image, from, keys, values| Reference.listing(image, from, keys, &mut values.to_vec());
    listing_out_of_order by runs::few_blocks, "keys and values, rising":
        listing = |image, from, keys, values| {
            let listed = Reference.listing(image, from, keys, values);
            keys[..listed.count as usize].reverse();
            values[..listed.count as usize].reverse();
            listed
        };
    listing_above_the_key by runs::few_blocks, "listing from":
        listing = |image, from, keys, values| Reference.listing(image, from.saturating_add(1), keys, values);
    listing_from_0 by runs::few_blocks, "listing from":
        listing = |image, _, keys, values| Reference.listing(image, 0, keys, values);
    listing_writes_past_the_count by runs::few_blocks, "keys past the count stay":
        listing = |image, from, keys, values| {
            let listed = Reference.listing(image, from, keys, values);
            keys[listed.count as usize..].fill(0);
            listed
        };
    listing_of_no_sound_image by damage::each_clause, "listing of an image that is not sound":
        listing = |image, from, keys, values| match Reference.listing(image, from, keys, values) {
            Listed { answer: 3, .. } => Listed::default(),
            listed => listed,
        };
    recovery_in_block_order by runs::few_blocks, "recovery's leaf":
        recovery = |image, smallest, numbers| {
            let recovered = Reference.recovery(image, smallest, numbers);
            numbers[..recovered.leaves as usize].sort();
            recovered
        };
    recovery_of_full_leaves by runs::few_blocks, "recovery":
        recovery = |image, smallest, numbers| {
            let recovered = Reference.recovery(image, smallest, numbers);
            Recovered { entries: 14 * recovered.leaves, ..recovered }
        };
    recovery_writes_past_the_leaves by runs::few_blocks, "entries past recovery's leaves stay":
        recovery = |image, smallest, numbers| {
            let recovered = Reference.recovery(image, smallest, numbers);
            if recovered.answer == 0 { numbers[recovered.leaves as usize..].fill(0) }
            recovered
        };
    recovery_tells_leaves_in_refusing by damage::each_clause, "recovery of an image that is not sound":
        recovery = |image, smallest, numbers| match Reference.recovery(image, smallest, numbers) {
            Recovered { answer: 3, .. } => Recovered { answer: 3, leaves: 1, entries: 0 },
            recovered => recovered,
        };
    recovery_judges_before_it_measures by refusals::reads_and_changes, "recovery's answer":
        recovery = |image, smallest, numbers| match Reference.recovery(image, smallest, numbers) {
            Recovered { answer: 8, .. } if sound_chain(image).is_none() => Err(Refusal::NotSound).into(),
            recovered => recovered,
        };
}

caught! { alone;
    run_of_nothing by runs::few_blocks, "the map after":
        run = |image, list, n| run_with(Vec::clear, image, list, n);
    run_without_the_last_store by runs::few_blocks, "the map after":
        run = |image, list, n| run_with(without_last_store, image, list, n);
    run_without_the_56th_step by lists::any_steps, "a run makes all stores":
        run = |image, list, n| run_with(|steps| steps.truncate(MOST_STEPS - 1), image, list, n);
    run_of_57_steps by refusals::run_and_cut, "run of 57":
        run = |image, list, n| if n == 57 { Reference.run(image, list, 3) } else { Reference.run(image, list, n) };
    run_of_malformed_steps by lists::any_steps, "a run of malformed steps":
        run = |image, list, n| match Reference.run(image, list, n) {
            7 if n <= 56 && list.len() as u64 >= 2 * n => 0,
            answer => answer,
        };
    run_stores_before_it_refuses by refusals::run_and_cut, "what a run leaves":
        run = |image, list, n| {
            let answer = Reference.run(image, list, n);
            if let (7, Some(steps)) = (answer, first_steps(list, 1, image.len())) { memory::run(image, &steps) }
            answer
        };
    run_reads_behind_its_steps by refusals::run_and_cut, "run of 3":
        run = |image, list, n| match first_steps(list, list.len() as u64 / 2, image.len()) {
            None if Reference.run(&mut image.to_vec(), list, n) == 0 => 7,
            _ => Reference.run(image, list, n),
        };
    cut_of_nothing by runs::every_cut, "all steps taken and settled":
        cut = |image, list, n, arrivals| cut_with(|_, _, _| 0, image, list, n, arrivals);
    cut_as_a_run by lists::any_steps, "a cut makes the first few stores":
        cut = |image, list, n, arrivals| cut_with(|_, _, made| made, image, list, n, arrivals);
    cut_without_the_unsettled by lists::any_steps, "all stores arrived":
        cut = |image, list, n, arrivals| cut_with(|settled, _, _| settled, image, list, n, arrivals);
    cut_one_short by lists::any_steps, "a cut makes the first few stores":
        cut = |image, list, n, arrivals| {
            cut_with(|settled, arrived, made| if arrived < made { arrived.max(settled + 1) - 1 } else { made },
                image, list, n, arrivals)
        };
    cut_below_the_settled by lists::any_steps, "a cut that is not permitted":
        cut = |image, list, n, arrivals| cut_if(|_, arrived, made| arrived <= made, image, list, n, arrivals);
    cut_above_the_made by lists::any_steps, "a cut that is not permitted":
        cut = |image, list, n, arrivals| cut_if(|settled, arrived, _| arrived >= settled, image, list, n, arrivals);
    cut_settles_nothing by cases::settled_by_an_earlier_write_back, "the store is settled":
        cut = |image, list, n, arrivals| cut_if(|_, arrived, made| arrived <= made, image, list, n, arrivals);
    cut_with_more_arrivals_than_lines by refusals::run_and_cut, "cut of 3":
        cut = |image, list, n, arrivals| {
            let used = arrivals.len().min(memory::lines(image));
            Reference.cut(image, list, n, &arrivals[..used])
        };
    cut_counts_before_it_reads by refusals::run_and_cut, "cut of":
        cut = |image, list, n, arrivals| match Reference.cut(image, list, n, arrivals) {
            7 if arrivals.len() != memory::lines(image) => 10,
            answer => answer,
        };
}

caught! { beside_the_reference;
    a_spare_line_write by runs::few_blocks, "put":
        put = |image, list, key, value| told(Reference.put(image, list, key, value), |made| made.line_writes += 1);
    another_order_of_stores by runs::few_blocks, "put: element":
        put = |image, list, key, value| put_with(|steps| steps.swap(0, 1), image, list, key, value);
    another_fingerprint_in_a_vacant_slot by runs::few_blocks, "del: element":
        del = |image, list, key| del_with(|steps| match &mut steps[0] {
            Step::Store { place, value } if *place % 256 == 0 => *value ^= 1 << 63,
            _ => (),
        }, image, list, key);
    a_word_past_the_list by runs::few_blocks, "put: element":
        put = |image, list, key, value| {
            let made = Reference.put(image, list, key, value);
            if made.answer == 0 { list[111] = 0 }
            made
        };
    a_word_outside_the_list by runs::few_blocks, "written outside the buffer":
        put = |image, list, key, value| {
            let made = Reference.put(image, list, key, value);
            // SAFETY: the word behind the list is the first of the guard that `Both` puts there.
            unsafe { list.as_mut_ptr().add(list.len()).write(0) };
            made
        };
    a_word_before_the_keys by runs::few_blocks, "written outside the buffer":
        listing = |image, from, keys, values| {
            // SAFETY: the word before the keys is the last of the guard that `Both` puts there.
            unsafe { keys.as_mut_ptr().sub(1).write(0) };
            Reference.listing(image, from, keys, values)
        };
    another_run by lists::any_steps, "run":
        run = |image, list, n| run_with(without_last_store, image, list, n);
    another_cut by runs::few_blocks, "cut":
        cut = |image, list, n, arrivals| cut_with(|_, _, made| made, image, list, n, arrivals);
}

macro_rules! program_caught {
    ($($name:ident by $trial:path, $reason:literal: $wrong:expr;)*) => {
        $(
            #[test]
            #[should_panic(expected = $reason)]
            fn $name() {
                $trial(&$wrong);
            }
        )*
    };
}

fn replaced(input: &[u8], old: u8, new: u8) -> Vec<u8> {
    input.iter().map(|&byte| if byte == old { new } else { byte }).collect()
}

program_caught! {
    program_of_nothing by programs::example, "document 01's example": |_| String::new();
    program_with_a_last_line_unread by programs::input_bounds, "no last line end": |input| {
        let end = input.iter().rposition(|&byte| byte == b'\n').map_or(0, |at| at + 1);
        program::output(&input[..end])
    };
    program_that_reads_one_byte_more by programs::input_bounds, "one byte too many":
        |input| program::output(&input[..input.len().min(65_536)]);
    program_with_words_in_any_case by programs::malformed_lines, "PUT": |input| program::output(&input.to_ascii_lowercase());
    program_with_spaces_for_tabs by programs::malformed_lines, "put 1 2": |input| program::output(&replaced(input, b' ', b'\t'));
    program_with_signs by programs::malformed_lines, "get\\t-0": |input| program::output(&replaced(input, b'-', b'1'));
    program_that_stops_at_a_malformed_line by programs::malformed_lines, "among others": |input| {
        let output = program::output(input);
        let upto = output.find("9\t0\t0\t0\n").map_or(output.len(), |at| at + 8);
        output[..upto].to_string()
    };
}
