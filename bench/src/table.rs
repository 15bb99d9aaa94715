//! The times as tables: a row for each case, and a row for each goal.

use crate::cases::{Beside, Case, Goal, GOALS};
use crate::Times;

/// A row for each goal.
pub fn goals(timed: &[(Case, Times)]) -> String {
    let mut lines = vec![
        "| goal, on 16,384 elements where nothing else is said | at most | met | worst | where |".to_string(),
        "|---|---|--:|--:|---|".to_string(),
    ];
    lines.extend(GOALS.iter().map(|&goal| goal_row(goal, timed)));
    lines.join("\n") + "\n"
}

/// A row for each case, in nanoseconds an element of the result.
pub fn cases(timed: &[(Case, Times)]) -> String {
    let mut lines = vec![
        "| primitive | shape | case | elements | kernel | Rust | copy | NumPy | kernel/copy | kernel/Rust | goals |"
            .to_string(),
        "|---|---|---|--:|--:|--:|--:|--:|--:|--:|---|".to_string(),
    ];
    lines.extend(timed.iter().map(|(case, times)| case_row(case, times)));
    lines.join("\n")
}

fn case_row(case: &Case, times: &Times) -> String {
    let an_element = |time: f64| format!("{:.3}", time / times.count as f64);
    let goals = case.goals.iter().map(|&goal| {
        let met = if is_met(goal, ratio(goal, times)) { "met" } else { "**not met**" };
        format!("{}: {met}", most(goal))
    });
    format!(
        "| {} | {} | {} | {} | {} | {} | {} | {} | {:.2} | {:.2} | {} |",
        case.primitive,
        case.shape,
        case.what,
        times.count,
        an_element(times.kernel),
        an_element(times.rust),
        an_element(times.copy),
        times.numpy.map_or(String::new(), an_element),
        times.kernel / times.copy,
        times.kernel / times.rust,
        goals.collect::<Vec<_>>().join(", "),
    )
}

/// In how many of its cases a goal is met, and the worst of them.
fn goal_row(goal: Goal, timed: &[(Case, Times)]) -> String {
    let held = timed.iter().filter(|(case, _)| case.goals.contains(&goal));
    let mut held: Vec<(f64, &Case)> = held.map(|(case, times)| (ratio(goal, times), case)).collect();
    held.sort_by(|a, b| b.0.total_cmp(&a.0));
    let met = held.iter().filter(|(ratio, _)| is_met(goal, *ratio)).count();
    let (worst, case) = held.first().expect("every goal has a case");
    format!(
        "| {} | {} | {met} of {} | {worst:.2} | {} {} {} |",
        goal.name,
        most(goal),
        held.len(),
        case.primitive,
        case.shape,
        case.what,
    )
}

fn ratio(goal: Goal, times: &Times) -> f64 {
    match goal.beside {
        Beside::Copy => times.kernel / times.copy,
        Beside::Rust => times.kernel / times.rust,
    }
}

/// As the ratio is printed, in hundredths.
fn is_met(goal: Goal, ratio: f64) -> bool {
    (ratio * 100.0).round() <= goal.most * 100.0
}

fn most(goal: Goal) -> String {
    match goal.beside {
        Beside::Copy => format!("{} copies", goal.most),
        Beside::Rust => format!("{} Rust", goal.most),
    }
}
