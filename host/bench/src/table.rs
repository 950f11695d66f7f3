//! Tables in the layout of docs/SPEED.md.

pub struct Table {
    title: String,
    heads: Vec<String>,
    rows: Vec<Vec<String>>,
}

impl Table {
    pub fn new(title: &str, first: &str) -> Self {
        Table { title: title.to_string(), heads: vec![first.to_string()], rows: Vec::new() }
    }

    pub fn columns(&mut self, heads: &[&str]) {
        self.heads.extend(heads.iter().map(|head| head.to_string()));
    }

    pub fn row(&mut self, name: &str, cells: Vec<String>) {
        self.rows.push([vec![name.to_string()], cells].concat());
    }

    pub fn print(&self) {
        println!("### {}\n", self.title);
        println!("| {} |", self.heads.join(" | "));
        println!("|{}", "---|".repeat(self.heads.len()));
        for row in &self.rows {
            println!("| {} |", row.join(" | "));
        }
        println!();
    }
}

/// Nanoseconds; a dash for what was not measured.
pub fn time(ns: Option<f64>) -> String {
    match ns {
        Some(ns) if ns < 1000.0 => format!("{ns:.1}"),
        Some(ns) => format!("{ns:.0}"),
        None => "-".to_string(),
    }
}

/// A few nanoseconds.
pub fn small(ns: Option<f64>) -> String {
    ns.map_or("-".to_string(), |ns| format!("{ns:.2}"))
}

pub fn ratio(time: Option<f64>, base: Option<f64>) -> String {
    match (time, base) {
        (Some(time), Some(base)) => format!("{:.2}", time / base),
        _ => "-".to_string(),
    }
}
