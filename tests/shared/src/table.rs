// Prints rows and tables of counts; each gives the number of its zeros.

use std::collections::BTreeMap;

/// Zeros are to be found at a glance.
fn mark(count: u64) -> &'static str {
    if count == 0 {
        "  <== never"
    } else {
        ""
    }
}

pub fn print_row(name: &str, cells: Vec<(String, u64)>) -> usize {
    println!("  {name}");
    let mut line = String::new();
    let mut zeros = 0;
    for (name, count) in cells {
        zeros += usize::from(count == 0);
        let cell = format!("{name}: {count}{}", mark(count));
        if line.len() + cell.len() > 110 {
            println!("    {line}");
            line.clear();
        }
        line.push_str(if line.is_empty() { "" } else { ", " });
        line.push_str(&cell);
    }
    println!("    {line}");
    zeros
}

pub fn print_named(title: &str, names: &[&str], counts: &BTreeMap<&'static str, u64>) -> usize {
    println!("  {title}");
    for name in names {
        println!("    {:>9}  {name}{}", counts[name], mark(counts[name]));
    }
    names.iter().filter(|name| counts[**name] == 0).count()
}

pub fn print_table<const C: usize, const R: usize>(
    name: &str,
    columns: &[String; C],
    rows: &[String; R],
    cells: &[[u64; C]; R],
) -> usize {
    println!("  {name}");
    let wide = rows.iter().map(String::len).max().unwrap_or(0);
    let titles: String = columns.iter().map(|title| format!("{title:>13}")).collect();
    println!("    {:<wide$}{titles}", "");
    let mut zeros = 0;
    for (row, counts) in rows.iter().zip(cells) {
        let line: String = counts.iter().map(|count| format!("{count:>13}")).collect();
        let empty = counts.iter().filter(|count| **count == 0).count();
        zeros += empty;
        println!("    {row:<wide$}{line}{}", mark(u64::from(empty == 0)));
    }
    zeros
}
