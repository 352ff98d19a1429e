//! Where a list stands: with the crate that runs it, or under `peer/cases`.

/// The crate that runs a list, where one does.
fn crate_of(list: &str) -> Option<String> {
    match list {
        "two-lines" => Some("check_sample".to_string()),
        "residue" => Some("check_residue".to_string()),
        "lines" => Some("case_food_line".to_string()),
        "residue-lines" => Some("case_residue_line".to_string()),
        "fat-over-limit"
        | "large-discrepancy"
        | "readmitted"
        | "second-probation-by-misses"
        | "set-mean-edge"
        | "set-spread-edge" => None,
        _ => Some(format!("case_{}", list.replace('-', "_"))),
    }
}

/// The list and its output, by their paths from the repository's root.
pub fn paths(list: &str) -> [String; 2] {
    let start = match crate_of(list) {
        Some(name) => format!("crates/{name}/"),
        None => format!("peer/cases/{list}."),
    };
    ["stdin", "stdout"].map(|end| format!("{start}{end}"))
}
