//! The tables, and docs/SPEED.md around them.

use std::{fs, process::Command};

use crate::{
    measure::{Figures, Measured},
    scenario::Operation,
};

/// With a comma before each three digits.
fn grouped(digits: &str) -> String {
    let mut text = String::new();
    for (i, digit) in digits.chars().enumerate() {
        if i > 0 && (digits.len() - i) % 3 == 0 {
            text.push(',');
        }
        text.push(digit);
    }
    text
}

fn count(packets: u32) -> String {
    grouped(&packets.to_string())
}

/// Whole numbers from 100 on, else one digit behind the point.
fn nanoseconds(value: f64) -> String {
    if value < 99.95 {
        return format!("{value:.1}");
    }
    grouped(&format!("{value:.0}"))
}

fn ratio(ours: f64, rust: f64) -> String {
    format!("{:.2}", ours / rust)
}

fn row(m: &Measured, f: &Figures) -> String {
    let cells = [
        m.operation.name().to_string(),
        count(m.packets),
        nanoseconds(f.rust),
        nanoseconds(f.library),
        nanoseconds(f.without()),
        ratio(f.library, f.rust),
        ratio(f.without(), f.rust),
    ];
    format!("| {} |\n", cells.join(" | "))
}

fn table(measured: &[Measured], figures: fn(&Measured) -> &Figures) -> String {
    let head =
        "| operation | buffered | Rust | library | without checks | ratio | ratio without |\n\
                |---|--:|--:|--:|--:|--:|--:|\n";
    measured
        .iter()
        .fold(head.to_string(), |text, m| text + &row(m, figures(m)))
}

pub fn best(measured: &[Measured]) -> String {
    table(measured, |m| &m.best)
}

fn median(measured: &[Measured]) -> String {
    table(measured, |m| &m.median)
}

/// What one check takes, and how much was measured.
fn checks(measured: &[Measured]) -> String {
    let head = "| operation | buffered | a check | calls | packets | repetitions |\n|---|--:|--:|--:|--:|--:|\n";
    let line = |m: &Measured| {
        let check = m.best.check * f64::from(m.units) / m.calls as f64;
        format!(
            "| {} | {} | {} | {} | {} | {} |\n",
            m.operation.name(),
            count(m.packets),
            nanoseconds(check),
            m.calls,
            m.units,
            m.repetitions
        )
    };
    measured
        .iter()
        .fold(head.to_string(), |text, m| text + &line(m))
}

/// The operations and sizes at which `ours` is above the Rust's figure.
fn slower(measured: &[Measured], ours: fn(&Figures) -> f64) -> String {
    let sizes = |operation: Operation| {
        let of = measured.iter().filter(|m| m.operation == operation);
        let above = of.filter(|m| ours(&m.best) > m.best.rust);
        let sizes: Vec<String> = above.map(|m| count(m.packets)).collect();
        (!sizes.is_empty()).then(|| format!("{} at {}", operation.name(), sizes.join(" and ")))
    };
    let names: Vec<String> = Operation::ALL.into_iter().filter_map(sizes).collect();
    if names.is_empty() {
        return "none".to_string();
    }
    names.join("; ")
}

/// The first line that a tool says of its version.
fn version(tool: &str) -> String {
    let said = Command::new(tool).arg("--version").output();
    let text = said.map_or_else(
        |_| String::new(),
        |o| String::from_utf8_lossy(&o.stdout).into_owned(),
    );
    text.lines().next().unwrap_or("unknown").to_string()
}

fn processor() -> String {
    let text = fs::read_to_string("/proc/cpuinfo").unwrap_or_default();
    let line = text.lines().find(|line| line.starts_with("model name"));
    let name = line.and_then(|line| line.split(": ").nth(1));
    name.unwrap_or("unknown").to_string()
}

/// The template with what was measured in its places.
pub fn page(template: &str, measured: &[Measured], clock: u128) -> String {
    [
        ("{{processor}}", processor()),
        ("{{rustc}}", version("rustc")),
        ("{{cc}}", version("cc")),
        ("{{clock}}", clock.to_string()),
        ("{{best}}", best(measured)),
        ("{{median}}", median(measured)),
        ("{{checks}}", checks(measured)),
        ("{{slower}}", slower(measured, |f| f.library)),
        ("{{slower without}}", slower(measured, Figures::without)),
    ]
    .iter()
    .fold(template.to_string(), |page, (place, text)| {
        page.replace(place, text.trim_end())
    })
}
