//! In the built libraries the display's calls and the full ones share one core.

use planner_tests::repository::top;
use std::fs;

/// The functions that both callers' calls go through, by library.
const CORE: [(&str, &[&str]); 2] = [
    (
        "libtable_exports.a",
        &[
            "table_read::limited::read_limited",
            "table_write::limited::write_limited",
        ],
    ),
    (
        "libplan_exports.a",
        &[
            "table_read::limited::read_limited",
            "plan_order::sorting::pass",
            "plan_methods::limited::slse_plan",
            "plan_methods::limited::turns_answer",
            TAKEN_IN,
            "plan_output::text::print_plan",
        ],
    ),
];

/// One that the compiler may take into its only caller: then it has no section of its own.
const TAKEN_IN: &str = "plan_turns::offers::make_offer";

/// The library's copies of a function, by the sections that have its name.
fn copies(library: &[u8], name: &str) -> usize {
    let section = format!(".text.{name}");
    let strings = library.split(|&byte| byte == 0);
    let named = |text: &&[u8]| {
        let mut parts = text.windows(section.len());
        parts.any(|part| part == section.as_bytes())
    };
    strings.filter(named).count()
}

#[test]
fn stands_once() {
    for (file, names) in CORE {
        let path = top().join("target/staticlib").join(file);
        let library = fs::read(&path).expect("a built library");
        for name in names {
            let copies = copies(&library, name);
            let none = copies == 0 && *name == TAKEN_IN;
            assert!(copies == 1 || none, "{name} in {file}: {copies}");
        }
    }
}
