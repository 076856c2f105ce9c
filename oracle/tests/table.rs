//! The table of document 01's "The list of calls" as a plain machine beside
//! the node: fed each line's arguments and whether it was taken, it must end
//! with the node's reading bar, ballot, start, accept bar and pairs.
//!
//! It also holds a roster, since the original asks whether a heartbeat's
//! roster differs from the node's; and the draft, which is that argument.

use bodega_oracle::generate;
use bodega_oracle::item::Item;
use bodega_oracle::replay::Replay;
use bodega_oracle::script::Script;

const BEYOND: u64 = u64::MAX;

/// A roster as a list of points: at which key a new mask or none begins.
#[derive(Clone, PartialEq, Eq, Default, Debug)]
struct Roster {
    leader: Option<u64>,
    /// (first key, mask or none), ascending; before the first there is none.
    steps: Vec<(u128, Option<u64>)>,
}

impl Roster {
    fn at(&self, key: u128) -> Option<u64> {
        self.steps
            .iter()
            .rev()
            .find(|(k, _)| *k <= key)
            .and_then(|(_, mask)| *mask)
    }

    fn set(&mut self, start: u128, end: u128, mask: u64) {
        let mut keys: Vec<u128> = self.steps.iter().map(|(k, _)| *k).collect();
        keys.push(start);
        keys.extend(end.checked_add(1));
        let new = |key: u128| {
            if (start..=end).contains(&key) {
                Some(mask)
            } else {
                self.at(key)
            }
        };
        let steps = keys.iter().map(|&key| (key, new(key))).collect();
        self.steps = steps;
        self.tidy();
    }

    fn tidy(&mut self) {
        self.steps.sort_unstable();
        self.steps.dedup();
        let mut last = None;
        self.steps.retain(|(_, mask)| {
            let keep = *mask != last;
            last = *mask;
            keep
        });
    }

    fn filter(&mut self, replica: u64) {
        if self.leader == Some(replica) {
            self.leader = None;
        }
        for (_, mask) in &mut self.steps {
            *mask = mask.map(|m| m & !(1 << replica));
        }
        self.tidy();
    }

    fn spans(&self) -> Vec<Item> {
        let ends = self
            .steps
            .iter()
            .skip(1)
            .map(|(k, _)| k - 1)
            .chain([u128::MAX]);
        let mut items: Vec<Item> = self
            .steps
            .iter()
            .zip(ends)
            .filter_map(|((start, mask), end)| {
                mask.map(|mask| Item::Span {
                    start: *start,
                    end,
                    mask,
                })
            })
            .collect();
        items.push(Item::Rest { mask: 0 });
        items
    }
}

#[derive(Default)]
struct Table {
    id: u64,
    quorum: u64,
    ballot: u64,
    start: u64,
    accept: u64,
    pairs: Vec<(u64, u64)>,
    figure: u64,
    roster: Roster,
    draft: Roster,
}

fn key(bytes: &[u8]) -> u128 {
    let text = std::str::from_utf8(bytes).unwrap();
    text.trim_start_matches(['k', 'K'])
        .trim_start_matches('+')
        .parse()
        .unwrap()
}

impl Table {
    fn work_out(&mut self) {
        let mut bars: Vec<u64> = self
            .pairs
            .iter()
            .map(|&(number, bar)| if number == self.ballot { bar } else { BEYOND })
            .collect();
        bars.sort_unstable();
        self.figure = bars[self.quorum as usize - 1];
    }

    /// A line that was taken.
    fn feed(&mut self, line: &[u8]) {
        let fields: Vec<&[u8]> = line.split(|&b| b == b',').collect();
        let n = |at: usize| -> u64 { std::str::from_utf8(fields[at]).unwrap().parse().unwrap() };
        match fields[0] {
            b"node" => {
                *self = Table {
                    id: n(1),
                    quorum: n(3),
                    pairs: vec![(0, BEYOND); n(2) as usize],
                    figure: BEYOND,
                    ..Table::default()
                };
            }
            b"lead" => self.draft.leader = Some(n(1)),
            b"range" => self.draft.set(key(fields[1]), key(fields[2]), n(3)),
            b"whole" => self.draft.set(0, u128::MAX, n(1)),
            b"drop" => self.draft.filter(n(1)),
            b"reset" => self.draft = Roster::default(),
            b"heard" => {
                let (peer, ballot, with) = (n(1), n(2), n(3) == 1);
                let installs = ballot > self.ballot
                    || (ballot == self.ballot
                        && with
                        && ballot & 0xff == peer + 1
                        && self.draft != self.roster);
                if installs {
                    self.ballot = ballot;
                    self.roster = self.draft.clone();
                    self.pairs[self.id as usize] = (ballot, self.accept);
                    self.work_out();
                }
            }
            b"guard" => {
                let (peer, number, bar) = (n(1) as usize, n(2), n(3));
                let old = self.pairs[peer];
                if number > old.0 || (number == old.0 && bar < old.1) {
                    self.pairs[peer] = (number, bar);
                    self.work_out();
                }
            }
            b"notice" => {
                let (slot, ballot) = (n(2), n(3));
                if slot >= self.start && ballot > self.ballot {
                    self.ballot = ballot;
                    self.roster.filter(self.id);
                }
            }
            b"bars" => (self.start, self.accept) = (n(1), n(2)),
            _ => {}
        }
    }
}

#[test]
fn table_and_node_agree_after_every_line() {
    let (mut lines, mut altered) = (0u64, 0u64);
    for seed in 0..700 {
        let mut input = Vec::new();
        generate::script(seed, 500, &mut input, &mut Vec::new(), None);
        let mut replay = Replay::new();
        let mut table = Table::default();
        let mut node = false;
        for (at, line) in Script::of(&input).lines.iter().enumerate() {
            let (_, refusal) = replay.line(line, &mut Vec::new());
            let before = table.figure;
            if refusal == 0 {
                node = true;
                table.feed(line);
            }
            lines += 1;
            altered += u64::from(before != table.figure);
            if refusal == 0 && line.as_slice() == b"show" {
                assert_eq!(replay.items(), table.draft.spans(), "seed {seed} line {at}");
            }
            if !node {
                continue;
            }
            let mut state = Vec::new();
            replay.write_state(&mut state);
            let state = String::from_utf8(state).unwrap();
            let (first, second) = state.trim_end().split_once('\n').unwrap();
            let numbers = |line: &str| -> Vec<u64> {
                line.split(',')
                    .skip(1)
                    .map(|n| n.parse().unwrap())
                    .collect()
            };
            let (bars, pairs) = (numbers(first), numbers(second));
            let table_bars = [table.figure, table.ballot, table.start, table.accept];
            assert_eq!(
                [bars[0], bars[1], bars[4], bars[5]],
                table_bars,
                "seed {seed} line {at}"
            );
            let table_pairs: Vec<u64> = table.pairs.iter().flat_map(|p| [p.0, p.1]).collect();
            assert_eq!(pairs, table_pairs, "seed {seed} line {at}");
        }
    }
    assert!(
        lines >= 300_000 && altered >= 10_000,
        "{lines} lines, {altered} changes"
    );
}
