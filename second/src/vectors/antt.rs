//! The text of the generated files.

use super::damages::DamageVector;
use super::traces::TraceVector;

/// The first line of a file of damaged directories.
pub const DAMAGED: &str =
    "-- Written by the second program: sound directories, single words changed, and the first rule that each change breaks.";

/// The first line of a file of directories with a wrong length.
pub const LENGTHENED: &str =
    "-- Written by the second program: directories with a word too many or too few, single words changed, and the first rule broken.";

/// The first line of a file of traces.
const TRACED: &str =
    "-- Written by the second program: traces with their answers and their last words.";

/// Where a line is broken.
const WIDTH: usize = 150;

/// The text of a file of traces.
pub fn trace_file(vectors: &[TraceVector]) -> String {
    let items: Vec<String> = vectors.iter().map(trace_item).collect();
    file(TRACED, "{Trace, trace}", "traces", "Trace", &items)
}

/// The text of a file of damages.
pub fn damage_file(comment: &str, vectors: &[DamageVector]) -> String {
    let items: Vec<String> = vectors.iter().map(damage_item).collect();
    file(comment, "{Damage, damage}", "damages", "Damage", &items)
}

/// The text of a file with a list of items.
fn file(comment: &str, names: &str, list: &str, kind: &str, items: &[String]) -> String {
    let mut text = format!("{comment}\nuse Rattle.std.specs.Prelude.{{List, [], ◌∷◌}}\n");
    text.push_str(&format!("use Rattle.vectors.specs.Vector.{names}\n\n"));
    text.push_str(&format!("abbrev pub {list} : List {kind}\n{list} =\n    "));
    for item in items {
        text.push_str(item);
        text.push_str("\n    ∷ ");
    }
    text.push_str("[]\n");
    text
}

/// One trace with its answers and its last words.
fn trace_item(vector: &TraceVector) -> String {
    let [policy, capacity, first, second] = vector.settings.numbers();
    format!(
        "trace {policy} {capacity} {first} {second}\n{}\n{}\n{}",
        numbers(&vector.pages),
        numbers(&vector.answers),
        numbers(&vector.words)
    )
}

/// One directory with its changes.
fn damage_item(vector: &DamageVector) -> String {
    let changes: Vec<u32> = vector
        .changes
        .iter()
        .flat_map(|change| [change.place as u32, change.value, change.rule])
        .collect();
    format!("damage\n{}\n{}", numbers(&vector.words), numbers(&changes))
}

/// A list of numbers in parentheses, in lines of about the given width.
fn numbers(list: &[u32]) -> String {
    let mut text = String::new();
    let mut line = "    (".to_string();
    for number in list {
        let element = format!("{number} ∷");
        if line.chars().count() + element.chars().count() > WIDTH {
            text.push_str(line.trim_end());
            text.push('\n');
            line = "    ".to_string();
        }
        line.push_str(&element);
        line.push(' ');
    }
    text.push_str(&line);
    text.push_str("[])");
    text
}
