//! Flows over fresh tables: good ones are accepted, and of all of them shares are conserved, reckoned
//! from the messages and the answers alone.

use samples::{random_bytes, twist, Flow, Layout, Random};
use second::{Tables, FULL};
use std::collections::HashMap;

/// The shares of an order's present or last life.
#[derive(Default)]
struct Life {
    added: u64,
    executed: u64,
    cancelled: u64,
    closed: u64,
}

/// Lives by their references, and what was put less what was taken by locate, side and price.
#[derive(Default)]
struct Reckoning {
    lives: HashMap<u64, Life>,
    levels: HashMap<[u64; 3], i128>,
}

impl Reckoning {
    fn accepted(&mut self, message: &[u8], figures: &[u64; 10]) {
        let layout = Layout::of(message[0]).expect("one of the 23");
        let get = |name| layout.field(name).expect("a field").get(message);
        match message[0] {
            b'A' | b'F' => self.begin(get("Order Reference Number"), &figures[..5]),
            b'E' | b'C' => {
                self.life(get("Order Reference Number")).executed += get("Executed Shares");
                self.take(&figures[..5]);
            }
            b'X' => {
                self.life(get("Order Reference Number")).cancelled += get("Cancelled Shares");
                self.take(&figures[..5]);
            }
            b'D' => self.end(get("Order Reference Number"), &figures[..5]),
            b'U' => {
                self.end(get("Original Order Reference Number"), &figures[..5]);
                self.begin(get("New Order Reference Number"), &figures[5..]);
            }
            _ => assert_eq!(*figures, [0; 10]),
        }
    }

    fn life(&mut self, reference: u64) -> &mut Life {
        self.lives.get_mut(&reference).expect("it was added")
    }

    fn begin(&mut self, reference: u64, figures: &[u64]) {
        let life = Life {
            added: figures[3],
            ..Life::default()
        };
        self.lives.insert(reference, life);
        *self.level(figures) += i128::from(figures[3]);
    }

    fn end(&mut self, reference: u64, figures: &[u64]) {
        self.life(reference).closed += figures[3];
        self.take(figures);
    }

    fn take(&mut self, figures: &[u64]) {
        *self.level(figures) -= i128::from(figures[3]);
    }

    fn level(&mut self, figures: &[u64]) -> &mut i128 {
        let level = [figures[0], figures[1], figures[2]];
        self.levels.entry(level).or_default()
    }

    /// Every life and every level against what the book shows.
    fn check(&self, tables: &Tables) {
        let mut shown: HashMap<u64, u64> = HashMap::new();
        let mut totals: HashMap<[u64; 3], i128> = HashMap::new();
        for slot in tables.book().slots().iter().filter(|slot| slot.live) {
            let (order, remaining) = (slot.order, slot.order.remaining());
            assert!(order.is_sound());
            let before = shown.insert(order.reference, remaining.into());
            assert!(before.is_none(), "a reference is live once");
            let level = [order.locate.into(), order.side.into(), order.price.into()];
            *totals.entry(level).or_default() += i128::from(remaining);
        }
        for (reference, life) in &self.lives {
            let shown = shown.remove(reference).unwrap_or(0);
            let parts = life.executed + life.cancelled + life.closed + shown;
            assert_eq!(life.added, parts);
        }
        assert!(shown.is_empty(), "every order shown was added");
        for (level, total) in &self.levels {
            assert_eq!(totals.remove(level).unwrap_or(0), *total);
        }
        assert!(totals.is_empty(), "every level shown was put there");
    }
}

/// Runs a flow; of a hundred messages so many are hostile.
fn run(groups: usize, hostile: u64, seed: u64) {
    let mut random = Random::new(seed);
    let mut tables = Tables::from_numbers(&[0; 9], &vec![0; 257 * groups]).expect("good lengths");
    let mut flow = Flow::new(9, 0);
    let mut reckoning = Reckoning::default();
    for turn in 0..4_000 {
        if turn % 100 == 0 {
            flow.wanted = random.place(64 * groups + 20);
            reckoning.check(&tables);
        }
        let mut message = flow.message(&mut random);
        if random.below(100) < hostile {
            match random.below(8) {
                0 => message = random_bytes(&mut random),
                _ => twist(&mut message, &flow, &mut random),
            }
        }
        let full = flow.orders.len() == 64 * groups;
        let (number, _, figures) = tables.apply(&message).numbers();
        if number == 0 {
            flow.learn(&message);
            reckoning.accepted(&message, &figures);
        }
        let refused_full = full && number == FULL;
        assert!(number == 0 || refused_full || hostile > 0, "{number}");
    }
    reckoning.check(&tables);
}

#[test]
fn good_flows_are_accepted_and_conserve_shares() {
    run(1, 0, 1);
    run(2, 0, 2);
    run(16, 0, 3);
}

#[test]
fn hostile_flows_conserve_shares() {
    run(1, 60, 4);
    run(2, 60, 5);
}
