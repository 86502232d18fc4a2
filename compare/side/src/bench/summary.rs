//! The page's first tables: how many cells reach the goal, and which fall short by how much.
use super::measure::Cell;
use super::page::short;
use super::rounds::{median, Spread};
use std::fmt::Write;

/// Rust's time by ours, at least.
fn goal(cell: &Cell) -> f64 {
    if cell.errors <= 5 || cell.huge {
        1.0
    } else {
        0.9
    }
}

fn shortfall(cell: &Cell) -> f64 {
    goal(cell) - cell.rounds.ratio().median
}

fn meets(cell: &Cell) -> bool {
    shortfall(cell) <= 0.0
}

fn meets_in_every_round(cell: &Cell) -> bool {
    cell.rounds.ratio().lowest >= goal(cell)
}

fn even(cell: &Cell) -> bool {
    cell.rounds.ratio().median >= 1.0
}

fn count(cells: &[&Cell], of: fn(&Cell) -> bool) -> usize {
    cells.iter().filter(|cell| of(cell)).count()
}

pub fn summary(page: &mut String, plain: &[Cell], huge: &[Cell]) {
    let _ = writeln!(
        page,
        "## In short\n\nThe goal is a ratio of at least 1.0 at 1 and 5 % errors, and of 0.9 at 12 %; on huge pages of 1.0 everywhere."
    );
    sentence(page, "", plain);
    sentence(page, " on huge pages", huge);
    let _ = writeln!(
        page,
        "\n| keys | cells | at least Rust's speed | goal met | in every round | ratio from | to | less opening from | to |\n|--:|--:|--:|--:|--:|--:|--:|--:|--:|"
    );
    for (pages, cells) in [("", plain), (", huge pages", huge)] {
        let mut sizes: Vec<String> = cells.iter().map(|cell| short(cell.keys)).collect();
        sizes.dedup();
        for size in sizes {
            let of_size: Vec<&Cell> = cells.iter().filter(|cell| short(cell.keys) == size).collect();
            row(page, &format!("{size}{pages}"), &of_size);
        }
    }
    page.push('\n');
    short_of_goal(page, plain, huge);
}

/// What the cells come to, and how far the rounds of a cell differ.
fn sentence(page: &mut String, where_: &str, cells: &[Cell]) {
    if cells.is_empty() {
        return;
    }
    let all: Vec<&Cell> = cells.iter().collect();
    let differ: Vec<f64> = all.iter().map(|cell| cell.rounds.ratio()).map(|ratio| (ratio.highest - ratio.lowest) / ratio.median * 100.0).collect();
    let most = differ.iter().copied().fold(0.0, f64::max);
    let _ = writeln!(
        page,
        "Of {} cells{where_} {} meet it and {} are at least as fast as the Rust; from the lowest to the highest ratio of a cell's rounds it is {:.0} % in the median cell, {most:.0} % at most.",
        all.len(),
        count(&all, meets),
        count(&all, even),
        median(differ)
    );
}

fn row(page: &mut String, size: &str, cells: &[&Cell]) {
    let range = |of: fn(&Cell) -> Spread| {
        let ratios: Vec<f64> = cells.iter().map(|cell| of(cell).median).collect();
        (ratios.iter().copied().fold(f64::MAX, f64::min), ratios.iter().copied().fold(0.0, f64::max))
    };
    let (whole, less) = (range(|cell| cell.rounds.ratio()), range(|cell| cell.rounds.ratio_less_opening()));
    let _ = writeln!(
        page,
        "| {size} | {} | {} | {} | {} | {:.2} | {:.2} | {:.2} | {:.2} |",
        cells.len(),
        count(cells, even),
        count(cells, meets),
        count(cells, meets_in_every_round),
        whole.0,
        whole.1,
        less.0,
        less.1
    );
}

/// The cells that miss it, those that miss it most first.
fn short_of_goal(page: &mut String, plain: &[Cell], huge: &[Cell]) {
    let mut cells: Vec<&Cell> = plain.iter().chain(huge).filter(|cell| !meets(cell)).collect();
    cells.sort_by(|a, b| shortfall(b).total_cmp(&shortfall(a)));
    if cells.is_empty() {
        page.push_str("No cell falls short of the goal.\n\n");
        return;
    }
    let _ = writeln!(
        page,
        "Short of the goal:\n\n| keys | k | method | errors | goal | ratio | its rounds from | to | short by |\n|--:|--:|---|--:|--:|--:|--:|--:|--:|"
    );
    for cell in cells {
        let (ratio, pages) = (cell.rounds.ratio(), if cell.huge { ", huge pages" } else { "" });
        let _ = writeln!(
            page,
            "| {}{pages} | {} | {:?} | {} % | {:.1} | {:.2} | {:.2} | {:.2} | {:.2} |",
            short(cell.keys),
            cell.k,
            cell.method,
            cell.errors,
            goal(cell),
            ratio.median,
            ratio.lowest,
            ratio.highest,
            shortfall(cell)
        );
    }
    page.push('\n');
}
