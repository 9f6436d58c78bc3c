//! How many cases have each of some things, and whether some case has each.

/// A run of fewer cases may miss something.
pub const MANY: usize = 2_000;

/// How many cases have each of some things.
#[derive(Default)]
pub struct Tally(Vec<(&'static str, usize)>);

impl Tally {
    /// Each thing by its name, in the same order every time, and whether the case has it.
    pub fn add<const THINGS: usize>(&mut self, things: [(&'static str, bool); THINGS]) {
        if self.0.is_empty() {
            self.0 = things.map(|(name, _)| (name, 0)).to_vec();
        }
        for (count, (_, has)) in self.0.iter_mut().zip(things) {
            count.1 += usize::from(has);
        }
    }

    pub fn print(&self, title: &str) {
        let counts: Vec<String> = self.0.iter().map(|(name, count)| format!("{name} {count}")).collect();
        println!("  {title}: {}", counts.join(", "));
    }

    /// Tells what no case has; whether there is nothing to tell.
    pub fn has_met_all(&self, title: &str) -> bool {
        for (name, _) in self.0.iter().filter(|count| count.1 == 0) {
            println!("NOT MET: {title}: {name}");
        }
        !self.0.is_empty() && self.0.iter().all(|count| count.1 > 0)
    }
}
