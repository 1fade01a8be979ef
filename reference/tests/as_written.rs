//! Every property passes for the rules as written.

use reference::properties::{Property, Setting, ALL};
use reference::rules::Rules;

const SETTING: Setting = Setting { rules: Rules::AS_WRITTEN, seed: 1, tables: 3_000 };

fn run(name: &str) {
    let property = ALL.iter().find(|property| property.name == name).expect("the property exists");
    println!("{name}: seed {}, {} tables", SETTING.seed, SETTING.tables);
    if let Err(why) = (property.run)(&SETTING) {
        panic!("{name}: {why}");
    }
}

/// A test for each property, and a list of their names.
macro_rules! tests {
    ($($name:ident)+) => {
        $(#[test] fn $name() { run(stringify!($name)); })+

        const TESTED: &[&str] = &[$(stringify!($name)),+];
    };
}

tests! {
    diamond
    diamond_with_priority
    direct_link
    six_bridges
    parallel_links
    metric_ends
    least_and_empty_table
    sixty_four_bridges
    places_for_two_hops
    longest_table
    longest_entry_list
    exported_figures
    overloaded_diamond
    overloaded_bridge_between
    overload_bit_alone_accepted
    tables_without_overload_list_as_before
    overload_changes_no_count
    overload_takes_paths_away
    diamond_with_ports_down
    half_link_alone_down
    parallel_links_with_ports_down
    half_link_mark_alone_accepted
    faulty_half_links_refused
    tables_without_ports_down_list_as_before
    half_links_down_list_as_withdrawn
    parts_joined_by_links_down_alone
    ports_down_take_paths_away
    frames_lost_at_links_down
    worked_loads
    diamond_loads
    loads_without_joined_pairs
    lost_amounts
    each_joined_pair_has_a_line
    faulty_traffic_refused
    traffic_that_is_no_repeat
    most_traffic_records
    tables_without_traffic_list_as_before
    loads_come_last
    loads_agree_with_brute_force
    sums_of_loads_agree
    sums_of_loads_agree_on_largest_plans
    diamond_with_extensions
    table_28_1_with_extensions
    extensions_and_six_bridges
    priorities_without_range
    addresses_repeat_with_any_extension
    tables_without_extensions_list_as_before
    extensions_list_as_if_cleared
    extensions_change_no_listing
    extensions_change_no_answer
    least_by_top_bits_and_address
    masks_of_table_28_1
    fewer_bridges_first
    higher_fourth_bridge
    complement_is_not_greatest
    equal_priorities
    group_addresses
    every_edit_refused
    every_truncation_refused
    wrong_lengths_refused
    words_after_end_refused
    limits_refused
    two_faults_refused
    ends_of_ranges_accepted
    valid_tables_accepted
    label_correcting_agrees_with_brute_force
    costs_agree_with_all_pairs
    exported_numbers_agree
    trees_agree
    path_lists_of_every_length
    entry_lists_of_every_length
    tree_lists_of_every_length
    unknown_names_refused
    faulty_tables_refused_by_every_call
    worked_sub_tlvs_read
    ends_of_services_read
    forms_refused
    unknown_b_macs_and_vids_refused
    faulty_services_refused
    order_of_refusals_read
    read_lists_of_every_length
    faulty_tables_refused_by_service_calls
    worked_sub_tlvs_written
    sixty_services_in_a_sub_tlv
    written_services_come_back
    written_lists_of_every_length
    unknown_names_not_written
    diamond_metrics_changed
    diamond_half_links_withdrawn
    half_links_down_edited
    ends_of_metrics_changed
    half_links_named
    order_of_refusals_of_changes
    changes_up_to_the_limit
    lengths_of_no_load
    trees_kept_in_lists_of_every_length
    faulty_tables_refused_by_edits
    edited_plans_agree
    matches_counted
    faulty_lists_refused
    written_lists_looked_up
    worked_listing
    listing_without_paths
    listing_says_what_the_calls_say
    demand_3_on_small_plans
    demand_3_on_middle_plans
    demand_3_on_largest_plans
}

#[test]
fn every_property_is_tested() {
    let names = |property: &Property| property.name;
    assert_eq!(ALL.iter().map(names).collect::<Vec<_>>(), TESTED);
}
