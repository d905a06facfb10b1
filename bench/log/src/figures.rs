//! `Figures`: how many orders were carried out, in which time, and how long each took.

use std::time::Duration;

/// How many orders were carried out, in which time, and how long each took.
pub struct Figures {
    pub clients: u32,
    pub taken: Duration,
    pub each: Vec<Duration>,
}

impl Figures {
    // Of so many thousandths of the orders, in milliseconds.
    fn part(&self, thousandths: usize) -> f64 {
        let last = self.each.len().saturating_sub(1);
        let place = (self.each.len() * thousandths / 1000).min(last);
        self.each
            .get(place)
            .map_or(0.0, |it| 1000.0 * it.as_secs_f64())
    }

    /// One line: `WAY CLIENTS ORDERS-A-SECOND P50 P99`, times in milliseconds.
    pub fn print(mut self, way: &str) {
        self.each.sort_unstable();
        let orders = u32::try_from(self.each.len()).unwrap_or(u32::MAX);
        let rate = f64::from(orders) / self.taken.as_secs_f64();
        let (half, most) = (self.part(500), self.part(990));
        println!("{way} {} {rate:.0} {half:.3} {most:.3}", self.clients);
    }
}
