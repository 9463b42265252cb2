#!/usr/bin/env python3
"""Gives the clauses that the toolchain's script had to name, of functions with several, names that say what they ask or promise.

    python3 tools/name_clauses.py CRATE..          at the top of the repository, once, before the crate's proofs are written
"""
import re
import sys

# crate: function: the names of its clauses, in the order in which they stand
NAMES = {
    "bits": {"number": "field_within offset_bound width_bound"},
    "packed": {
        "node_label": "v_bound labels_within value upper_bound",
        "has_unknown_node": "edges_within nodes_bound edges_bound",
    },
    "graph": {
        "edge_words": "edges_within nodes_bound edges_bound",
        "empty_matrix": "matrix_len zeros",
        "raise": "a_bound b_bound room",
        "fill_matrix": "edges_bound matrix_len zeros keeps_len adjacent",
        "adjacency_matrix": "matrix_len adjacent",
    },
    "settings": {
        "is_set": "settings_len offset_bound",
        "read_switches": "settings_len ordering_known greater_is",
    },
    "order": {
        "connect": "counts_len n_bound u_bound counts_fit",
        "degrees": "n_bound sums_fit",
        "larger": "v_bound found_before",
        "only": "v_below n_bound marks_len one_marked marks_v",
        "new": "agrees none_ordered",
        "take": "agrees few n_bound v_below not_ordered still_agrees appended",
        "order_level": "agrees few degrees waits n_bound still_agrees level_ordered",
        "reached": "marks_len counted marks_reached",
        "levels": "agrees few degrees waits n_bound still_agrees levels_ordered",
        "bfs_tree": "agrees few degrees root_below n_bound still_agrees tree_ordered",
        "write_order": "n_bound buffer_holds",
    },
    "prepare": {
        "put_node": "rows_len nodes_bound keeps_len node_put",
        "put_edge": "rows_len nodes_bound keeps_len edge_put",
        "raise_degree": "v_bound room",
        "raise_ends": "nodes_len nodes_bound room",
        "fill_degrees": "edges_bound nodes_len degrees_clear degrees_for keeps_labels",
        "places": "n_bound distinct places_are places_bound",
        "renumber_words": "edges_bound places_bound renumbered_len",
        "put_labels": "n_bound labels_within order_within nodes_len keeps_len labels_put keeps_rest",
        "renumber_file": "counts_are lengths renumbers keeps_len keeps_degrees",
        "fill_from_words": "edges_bound zeros degrees_clear filled keeps_labels",
        "prepare_one": "j_bound counts_are cleared_at prepares_at keeps_orders keeps_matrix keeps_rows keeps_words keeps_nodes",
        "prepare": "counts_are cleared",
    },
    "marks": {
        "push_state": "nodes_bound depth_bound lengths",
        "pop_state": "nodes_bound depth_bound lengths",
    },
    "feasibility": {
        "entries_in": "at_a_node neighbours",
        "labelled_edges": "bounds into_len upper_bound carried",
        "passes_along": "tries degrees_agree",
    },
    "run": {"run": "stands counts_agree"},
    "maps": {
        "write_pairs": "pairs_bound buffer_holds images_bound",
        "write_map": "n1_bound buffer_holds images_bound",
    },
    "batches": {"gather": "stands buffer_holds"},
    "calls": {
        "start": "answer fresh_record",
        "finish": "buffer_holds padded images_bound",
        "continue_accepted": "first_read second_read",
    },
    "proposed": {
        "find_sources": "n_bounds map_len one_to_one sourced",
        "labels_agree": "n_bounds labels_within map_len images_bound",
    },
    "text": {
        "put_byte": "end text_after",
        "put_bytes": "end text_after",
        "decode": "text_holds bytes_hold is_digits decoded",
        "read_decoded": "line_holds bytes_hold digits decoded",
        "number": "text_holds count_bound value upper_bound",
    },
    "list": {
        "put_line": "from_bound pairs_bound puts_whole upper_bound",
        "put_maps": "from_bound batch_bound",
        "put_batch": "at_bound batch_bound",
        "list_accepted": "first_read second_read",
    },
}


def main():
    for crate in sys.argv[1:]:
        for path in (f"crates/{crate}/src/lib.rt", f"crates/{crate}/src/main.rt"):
            try:
                lines = open(path).read().split("\n")
            except OSError:
                continue
            out, given = [], None
            for line in lines:
                m = re.match(r"\s*(?:pub(?:\(\w+\))? )?fn (\w+)", line)
                if m:
                    given = NAMES.get(crate, {}).get(m.group(1), "").split()
                m = re.match(r"(\s+(?:requires|ensures)\*? )(\w+)( \{.*)", line)
                if m and given:
                    line = m.group(1) + given.pop(0) + m.group(3)
                    if given == []:
                        given = None
                out.append(line)
            open(path, "w").write("\n".join(out))


main()
