//! Random scripts by seed. The generator drives the oracle in process, so it
//! knows the node's state and aims each line at it.

use crate::bodega::{BodegaReplica, Status};
use crate::coverage::{Coverage, Watch};
use crate::item::write_u64;
use crate::replay::{
    MAX_BATCH, MAX_HELD, MAX_KEY, MAX_LINE, MAX_RANGES, MAX_SLOT, MAX_SLOTS, MAX_WRITTEN, Replay,
};
use crate::rng::Rng;

/// What a script leans to.
#[derive(Clone, Copy, PartialEq, Eq)]
enum Mood {
    /// A bit of everything.
    Mixed,
    /// Mostly not leader: records, notices, reads, holds.
    Follower,
    /// Mostly leader: step-ups, replies, resends, commits.
    Leader,
    /// Draft lines, up to 64 ranges and beyond.
    Rosters,
    /// Many distinct written keys, up to 256 and beyond.
    Keys,
    /// Reads held up to 16 a slot and beyond.
    Holds,
    /// A log kept full, so that step-ups and records meet its end.
    Full,
    /// Many lines before a node stands, and malformed ones.
    Malformed,
}

const MOODS: [Mood; 14] = [
    Mood::Mixed,
    Mood::Mixed,
    Mood::Follower,
    Mood::Follower,
    Mood::Leader,
    Mood::Leader,
    Mood::Leader,
    Mood::Rosters,
    Mood::Keys,
    Mood::Holds,
    Mood::Holds,
    Mood::Full,
    Mood::Full,
    Mood::Malformed,
];

pub struct Generator {
    rng: Rng,
    mood: Mood,
    population: u64,
    quorum: u64,
    id: u64,
    /// Numbers that keys are made of: `base` to `base + keys - 1`.
    base: u128,
    keys: u64,
    /// Counts up so that written keys can be new.
    fresh_key: u64,
    /// Client and request numbers count up to keep reads apart.
    request: u64,
    /// The node line comes after that many lines.
    node_after: u64,
    lines: u64,
    /// Lines that were decided on ahead, last first.
    ahead: Vec<Vec<u8>>,
}

fn field(line: &mut Vec<u8>, number: u64) {
    line.push(b',');
    write_u64(line, number);
}

fn fields(name: &str, numbers: &[u64]) -> Vec<u8> {
    let mut line = name.as_bytes().to_vec();
    for &n in numbers {
        field(&mut line, n);
    }
    line
}

impl Generator {
    #[must_use]
    pub fn new(seed: u64) -> Self {
        let mut rng = Rng::new(seed.wrapping_mul(0x2545_f491_4f6c_dd1d) ^ 0x6a09_e667_f3bc_c909);
        let mood = rng.pick(&MOODS);
        let population = match rng.below(10) {
            0 => 1,
            1 => 2,
            2..=4 => 3,
            5 | 6 => 5,
            7 => rng.between(4, 9),
            8 => rng.between(1, 64),
            _ => rng.pick(&[7, 8, 9, 63, 64, 64]),
        };
        let quorum = if population > 9 && rng.chance(60) {
            rng.between(1, 5)
        } else if rng.chance(75) {
            population / 2 + 1
        } else {
            rng.between(1, population)
        };
        let base = if rng.chance(80) {
            0
        } else {
            rng.pick(&[
                u128::from(u64::MAX) - 2,
                u128::MAX - 12,
                1 << 100,
                9_999_999_999_999_999_990,
            ])
        };
        let keys = match mood {
            Mood::Rosters => rng.pick(&[8, 40, 150, 300]),
            _ => rng.pick(&[1, 2, 4, 8, 12]),
        };
        let node_after = if mood == Mood::Malformed || rng.one_in(8) {
            rng.below(12)
        } else {
            0
        };
        Generator {
            id: rng.below(population),
            mood,
            population,
            quorum,
            base,
            keys,
            fresh_key: 0,
            request: 0,
            node_after,
            lines: 0,
            ahead: Vec::new(),
            rng,
        }
    }

    /// Of few replicas and keys, so that calls meet.
    pub(crate) fn small(mut self) -> Self {
        self.population = self.population % 5 + 1;
        self.quorum = self.quorum % self.population + 1;
        self.id %= self.population;
        self.keys = self.keys % 3 + 1;
        self.base = 0;
        self
    }

    /// The next line, without newline, given the state that the lines so far
    /// have left.
    pub fn next_line(&mut self, replay: &Replay) -> Vec<u8> {
        self.lines += 1;
        let Some(host) = replay.host() else {
            return self.before_node();
        };
        let node = &host.node;
        if let Some(line) = self.ahead.pop() {
            return line;
        }
        let malformed = if self.mood == Mood::Malformed { 12 } else { 2 };
        let line = self.line(node, host.draft.responders.iter().count());
        if self.rng.chance(malformed) {
            self.spoil(line)
        } else if self.rng.one_in(40) {
            self.respell_number(line)
        } else {
            line
        }
    }

    fn before_node(&mut self) -> Vec<u8> {
        if self.lines <= self.node_after {
            let scratch =
                BodegaReplica::fresh(self.id as u8, self.population as u8, self.quorum as u8);
            return match self.rng.below(4) {
                0 => {
                    let population = self.rng.pick(&[0, 65, 3, self.population]);
                    let quorum = self.rng.pick(&[0, self.quorum, population + 1]);
                    let id = self.rng.pick(&[population, 64, self.id]);
                    if (1..=64).contains(&population)
                        && (1..=population).contains(&quorum)
                        && id < population
                    {
                        fields("lead", &[0])
                    } else {
                        fields("node", &[id, population, quorum])
                    }
                }
                1 => {
                    let line = self.line(&scratch, 0);
                    self.spoil(line)
                }
                _ => loop {
                    let line = self.line(&scratch, 0);
                    if !line.starts_with(b"node") {
                        break line;
                    }
                },
            };
        }
        fields("node", &[self.id, self.population, self.quorum])
    }

    // ---- fields ----

    fn peer(&mut self) -> u64 {
        if self.rng.one_in(60) {
            let population = self.population;
            return self.rng.pick(&[
                population,
                population + 1,
                64,
                255,
                256,
                256 + self.id,
                1 << 63,
                u64::MAX,
            ]);
        }
        self.rng.below(self.population)
    }

    fn other(&mut self) -> u64 {
        if self.population == 1 {
            return 0;
        }
        let n = self.rng.below(self.population - 1);
        if n >= self.id { n + 1 } else { n }
    }

    fn mask(&mut self) -> u64 {
        let all = if self.population == 64 {
            u64::MAX
        } else {
            (1 << self.population) - 1
        };
        if self.rng.one_in(25) {
            return match self.rng.below(4) {
                0 if self.population < 64 => 1 << self.population,
                1 => u64::MAX,
                2 => 1 << 63,
                _ => all,
            };
        }
        let mut mask = match self.rng.below(8) {
            0 => 0,
            1 => all,
            2 => 1 << self.id,
            3 => 1 << self.rng.below(self.population),
            4 => (1 << self.rng.below(self.population)) | (1 << self.rng.below(self.population)),
            _ => self.rng.draw() & self.rng.draw() & all,
        };
        let own = match self.mood {
            Mood::Follower | Mood::Holds => 85,
            _ => 50,
        };
        if self.rng.chance(own) {
            mask |= 1 << self.id;
        }
        mask
    }

    fn ballot_by(&mut self, above: u64, proposer: u64) -> u64 {
        let round = (above >> 8).wrapping_add(1 + self.rng.below(2));
        (round << 8) | (proposer + 1)
    }

    fn ballot(&mut self, node: &BodegaReplica) -> u64 {
        match self.rng.below(24) {
            0 => node.bal_max_seen.wrapping_add(1),
            1 => node.bal_max_seen.wrapping_sub(1),
            2 => 0,
            3 => node.bal_prep_sent,
            4 | 5 => node.bal_prepared,
            6 => self.ballot_by(node.bal_max_seen, self.id),
            _ => node.bal_max_seen,
        }
    }

    fn odd_slot(&mut self, node: &BodegaReplica) -> u64 {
        let start = node.start_slot as u64;
        match self.rng.below(9) {
            0 => MAX_SLOT,
            1 => MAX_SLOT + 1,
            2 => u64::MAX,
            3 => start.saturating_sub(1),
            4 => self.rng.below(start + 1),
            5 => start + MAX_SLOTS as u64,
            6 => start + MAX_SLOTS as u64 + self.rng.below(4),
            7 => node.end() as u64,
            _ => start + MAX_SLOTS as u64 - 1,
        }
    }

    fn held_slot(&mut self, node: &BodegaReplica) -> u64 {
        if node.insts.is_empty() || self.rng.one_in(25) {
            return self.odd_slot(node);
        }
        node.start_slot as u64 + self.rng.below(node.insts.len() as u64)
    }

    fn bar(&mut self, node: &BodegaReplica) -> u64 {
        match self.rng.below(24) {
            0 => MAX_SLOT,
            1 => self.odd_slot(node),
            2 => 0,
            3..=6 => node.commit_bar as u64,
            7 => node.exec_bar as u64,
            8..=10 => node.end() as u64,
            _ => self
                .rng
                .between(node.start_slot as u64, node.end() as u64 + 1),
        }
    }

    fn key_number(&mut self) -> u128 {
        self.base
            .saturating_add(u128::from(self.rng.below(self.keys)))
    }

    fn spelled(&mut self, number: u128) -> Vec<u8> {
        let n = number.to_string();
        match self.rng.below(22) {
            0 => format!("K{n}"),
            1 => format!("kk{n}"),
            2 => format!("k+{n}"),
            3 => format!("k0{n}"),
            4 => n,
            5 => format!("kK00{n}"),
            6 => format!("+{n}"),
            _ => format!("k{n}"),
        }
        .into_bytes()
    }

    fn odd_key(&mut self) -> Vec<u8> {
        let mut key: Vec<u8> = match self.rng.below(20) {
            0 => b"".to_vec(),
            1 => b"k".to_vec(),
            2 => b"k-0".to_vec(),
            3 => b"+k7".to_vec(),
            4 => b"k++1".to_vec(),
            5 => b"k1x".to_vec(),
            6 => b"x1".to_vec(),
            7 => b"k 1".to_vec(),
            8 => b"k1\r".to_vec(),
            9 => b"k+".to_vec(),
            10 => b"k1\xff".to_vec(),
            11 => "k\u{661}".as_bytes().to_vec(),
            12 => b"k340282366920938463463374607431768211455".to_vec(),
            13 => b"k340282366920938463463374607431768211456".to_vec(),
            14 => b"999999999999999999999999999999999999999".to_vec(),
            15 => b"k3402823669209384634633746074317682114550".to_vec(),
            16 => {
                let mut key = vec![b'k'; MAX_KEY - 1];
                key.push(b'7');
                key
            }
            17 => vec![b'0'; MAX_KEY],
            _ => {
                let mut key = vec![self.rng.pick(b"kK0x"); MAX_KEY];
                key.push(b'1');
                key
            }
        };
        if self.rng.one_in(12) {
            key.insert(0, b'k');
        }
        key
    }

    fn key(&mut self) -> Vec<u8> {
        if self.rng.one_in(18) {
            return self.odd_key();
        }
        let number = self.key_number();
        self.spelled(number)
    }

    // ---- lines ----

    #[allow(clippy::too_many_lines)]
    fn line(&mut self, node: &BodegaReplica, ranges: usize) -> Vec<u8> {
        if node.bal_max_seen == 0 && self.rng.chance(35) {
            return self.adopt(node);
        }
        if node.insts.len() > MAX_SLOTS - 4 && self.mood != Mood::Full && self.rng.chance(60) {
            return self.drain(node);
        }
        let weights = match self.mood {
            Mood::Mixed | Mood::Malformed => {
                [3, 6, 1, 2, 1, 3, 2, 8, 10, 4, 16, 16, 16, 8, 10, 28, 3, 1]
            }
            Mood::Follower => [1, 2, 1, 1, 0, 1, 2, 5, 9, 1, 18, 3, 24, 8, 10, 36, 3, 1],
            Mood::Leader => [1, 2, 1, 1, 0, 1, 2, 6, 8, 9, 24, 38, 4, 5, 12, 18, 2, 1],
            Mood::Rosters if ranges > 60 && self.rng.one_in(150) => {
                [0, 0, 1, 2, 1, 1, 0, 0, 0, 0, 0, 0, 0, 0, 0, 0, 0, 0]
            }
            Mood::Rosters => [4, 90, 0, 1, 0, 5, 1, 3, 3, 1, 3, 2, 2, 1, 1, 8, 1, 1],
            Mood::Keys => [1, 2, 1, 1, 0, 1, 2, 2, 4, 3, 50, 4, 4, 3, 4, 12, 2, 1],
            Mood::Holds => [1, 2, 1, 1, 0, 1, 1, 2, 6, 1, 9, 2, 7, 3, 6, 60, 1, 1],
            Mood::Full => [2, 3, 1, 1, 0, 1, 8, 10, 8, 6, 30, 24, 8, 12, 3, 10, 2, 1],
        };
        match self.rng.weighted(&weights) {
            0 => {
                let leader = self.leader();
                fields("lead", &[leader])
            }
            1 => self.range(ranges),
            2 => {
                let mask = self.mask();
                fields("whole", &[mask])
            }
            3 => {
                let peer = self.peer();
                fields("drop", &[peer])
            }
            4 => b"reset".to_vec(),
            5 => b"show".to_vec(),
            6 => self.adopt(node),
            7 => self.heard(node),
            8 => self.guard(node),
            9 => {
                let ballot = if self.rng.chance(70) {
                    node.bal_prep_sent
                } else {
                    self.ballot(node)
                };
                fields("prepared", &[ballot])
            }
            10 => self.record(node),
            11 => self.reply(node),
            12 => self.notice(node),
            13 => {
                let peer = self.peer();
                let ballot = if self.rng.chance(60) {
                    node.bal_max_seen
                } else {
                    self.ballot(node)
                };
                let full = node.insts.len() > MAX_SLOTS / 2;
                let bar = if self.rng.chance(if full { 80 } else { 30 }) {
                    node.end() as u64 + self.rng.below(2)
                } else {
                    self.bar(node)
                };
                fields("commit", &[peer, ballot, bar])
            }
            14 => self.bars(node),
            15 => self.read(node),
            16 => {
                let slot = self.held_slot(node);
                fields("release", &[slot])
            }
            _ => fields("node", &[self.id, self.population, self.quorum]),
        }
    }

    /// A line that helps a full log on.
    fn drain(&mut self, node: &BodegaReplica) -> Vec<u8> {
        let first = &node.insts[0];
        if first.status >= Status::Committed {
            if first
                .replica_bk
                .as_ref()
                .is_some_and(|bk| !bk.holding_reads.is_empty())
            {
                return fields("release", &[node.start_slot as u64]);
            }
            return self.bars(node);
        }
        if node.is_leader() {
            return match self.rng.below(8) {
                0 => fields("prepared", &[node.bal_prep_sent]),
                1 | 2 => self.record(node),
                _ => self.reply(node),
            };
        }
        match self.rng.below(3) {
            0 => {
                let peer = self.rng.below(self.population);
                fields("commit", &[peer, node.bal_max_seen, node.end() as u64])
            }
            1 => self.record(node),
            _ => {
                let slot = self.held_slot(node);
                fields("release", &[slot])
            }
        }
    }

    fn leader(&mut self) -> u64 {
        let own = match self.mood {
            Mood::Leader | Mood::Full => 70,
            Mood::Follower | Mood::Holds => 15,
            _ => 40,
        };
        if self.rng.chance(own) {
            self.id
        } else {
            self.peer()
        }
    }

    fn range(&mut self, ranges: usize) -> Vec<u8> {
        let (mut start, mut end) = if self.mood == Mood::Rosters && self.rng.chance(97) {
            // mostly short ones, so that the table fills up
            let a = self.key_number();
            let width = if ranges >= MAX_RANGES - 2 {
                self.rng.pick(&[0, 0, 1, 1, 5])
            } else {
                self.rng.pick(&[0, 0, 0, 1, 2])
            };
            (a, a.saturating_add(width))
        } else {
            (self.key_number(), self.key_number())
        };
        if (start > end) != self.rng.one_in(15) {
            (start, end) = (end, start);
        }
        let mut line = b"range,".to_vec();
        let spelled = self.spelled(start);
        line.extend(if self.rng.one_in(30) {
            self.odd_key()
        } else {
            spelled
        });
        line.push(b',');
        let spelled = self.spelled(end);
        line.extend(if self.rng.one_in(30) {
            self.odd_key()
        } else {
            spelled
        });
        let mask = self.mask();
        field(&mut line, mask);
        line
    }

    /// Edits the draft a little and has a heartbeat install it.
    fn adopt(&mut self, node: &BodegaReplica) -> Vec<u8> {
        let proposer = if self.rng.chance(25) {
            self.id
        } else {
            self.rng.below(self.population)
        };
        let ballot = if self.rng.one_in(4) {
            // the present ballot, if it has a proposer
            node.bal_max_seen
        } else {
            self.ballot_by(node.bal_max_seen, proposer)
        };
        let peer = match (ballot & 0xff).checked_sub(1) {
            Some(peer) if peer < self.population => peer,
            _ => proposer,
        };
        let bars = self.heard_bars(node);
        let mut heard = fields("heard", &[peer, ballot, 1]);
        for bar in bars {
            field(&mut heard, bar);
        }

        // in the order of the script: draft lines, the heartbeat, prepared,
        // guards
        let mut lines = Vec::new();
        let leader = self.leader();
        lines.push(fields("lead", &[leader]));
        if self.rng.chance(60) {
            let mask = self.mask() | 1 << self.id;
            if self.mood != Mood::Rosters && self.rng.one_in(3) {
                lines.push(fields("whole", &[mask]));
            } else {
                let mut line = b"range,".to_vec();
                line.extend(format!("k{}", self.base).into_bytes());
                line.push(b',');
                line.extend(
                    format!(
                        "k{}",
                        self.base
                            .saturating_add(u128::from(self.rng.below(self.keys)))
                    )
                    .into_bytes(),
                );
                field(&mut line, mask);
                lines.push(line);
            }
        }
        lines.push(heard);
        if leader == self.id && self.rng.chance(70) {
            lines.push(fields("prepared", &[ballot]));
        }
        if self.rng.chance(70) {
            let bar = node.commit_bar as u64;
            let first = self.rng.below(self.population);
            for i in 0..self.quorum {
                let peer = (first + i) % self.population;
                let bar = bar.saturating_sub(self.rng.below(2));
                if peer != self.id {
                    lines.push(fields("guard", &[peer, ballot, bar]));
                }
            }
        }
        if node.accept_bar > node.commit_bar && self.rng.chance(60) {
            // else the own pair bars every read
            lines.insert(
                0,
                fields(
                    "bars",
                    &[
                        node.start_slot as u64,
                        node.commit_bar as u64,
                        node.commit_bar as u64,
                        node.exec_bar as u64,
                    ],
                ),
            );
        }
        lines.reverse();
        self.ahead = lines;
        self.ahead.pop().expect("at least the leader's line")
    }

    fn heard_bars(&mut self, node: &BodegaReplica) -> [u64; 3] {
        let commit = self.bar(node);
        let exec = match self.rng.below(4) {
            0 => self.bar(node),
            1 => node.exec_bar as u64 + self.rng.below(4),
            2 => (node.exec_bar as u64).saturating_sub(self.rng.below(3)),
            _ => node.exec_bar as u64,
        };
        let snap = if self.rng.one_in(4) {
            self.bar(node)
        } else {
            0
        };
        [commit, exec, snap]
    }

    fn heard(&mut self, node: &BodegaReplica) -> Vec<u8> {
        let ballot = match self.rng.below(10) {
            0 => {
                let proposer = self.rng.below(self.population);
                self.ballot_by(node.bal_max_seen, proposer)
            }
            1 => self.ballot(node),
            2 if self.rng.one_in(400) => u64::MAX,
            3 if self.rng.one_in(20) => node.bal_max_seen.saturating_add(self.rng.below(600)),
            _ => node.bal_max_seen,
        };
        let peer = match (ballot & 0xff).checked_sub(1) {
            Some(peer) if peer < self.population && self.rng.chance(50) => peer,
            _ => self.peer(),
        };
        let with = u64::from(if ballot > node.bal_max_seen {
            self.rng.chance(55)
        } else {
            self.rng.chance(40)
        });
        let bars = self.heard_bars(node);
        let mut line = fields("heard", &[peer, ballot, with]);
        for bar in bars {
            field(&mut line, bar);
        }
        line
    }

    fn guard(&mut self, node: &BodegaReplica) -> Vec<u8> {
        if node.peer_accept_max > node.commit_bar && self.rng.chance(70) {
            // one more step to where reads are served
            let first = self.rng.below(self.population);
            let peer = (0..self.population)
                .map(|i| (first + i) % self.population)
                .find(|&peer| {
                    let (number, bar) = node.peer_accept_bar[&(peer as u8)];
                    peer != self.id && (number != node.bal_max_seen || bar > node.commit_bar)
                });
            if let Some(peer) = peer {
                let bar = (node.commit_bar as u64).saturating_sub(self.rng.below(2));
                return fields("guard", &[peer, node.bal_max_seen, bar]);
            }
        }
        let peer = if self.rng.one_in(15) {
            self.peer()
        } else {
            self.other()
        };
        let number = match self.rng.below(10) {
            0 => self.ballot(node),
            1 => {
                let proposer = self.rng.below(self.population);
                self.ballot_by(node.bal_max_seen, proposer)
            }
            _ => node.bal_max_seen,
        };
        let bar = if self.rng.chance(60) {
            (node.commit_bar as u64).saturating_sub(self.rng.below(3))
        } else {
            self.bar(node)
        };
        fields("guard", &[peer, number, bar])
    }

    fn record(&mut self, node: &BodegaReplica) -> Vec<u8> {
        let current = if node.is_leader() {
            node.bal_prepared
        } else {
            node.bal_max_seen
        };
        let ballot = if self.rng.one_in(15) {
            self.ballot(node)
        } else {
            current
        };
        // the first slot that stands in the way of the commit walk
        let open = node
            .insts
            .iter()
            .position(|i| {
                i.status < Status::Accepting || (i.status == Status::Accepting && i.bal < current)
            })
            .map(|i| (node.start_slot + i) as u64);
        let holding = node
            .insts
            .iter()
            .position(|i| {
                i.status == Status::Accepting
                    && i.replica_bk
                        .as_ref()
                        .is_some_and(|bk| bk.holding_reads.len() > 2)
            })
            .map(|i| (node.start_slot + i) as u64);
        let slot = match (self.rng.below(12), open, holding) {
            (0, _, _) => self.odd_slot(node),
            (1, _, Some(holding)) => holding,
            (1 | 2, _, _) => self.held_slot(node),
            (3..=6, Some(open), _) => open,
            (7..=11, Some(open), _) if node.insts.len() == MAX_SLOTS && self.rng.chance(80) => open,
            (7, _, _) if self.mood == Mood::Full => (node.start_slot + MAX_SLOTS) as u64 - 1,
            (7, _, _) => node.end() as u64 + self.rng.below(3),
            _ => node.end() as u64,
        };
        let mut line = fields("record", &[slot, ballot]);
        let requests = match (self.mood, self.rng.below(40)) {
            (_, 0) => 0,
            (_, 1) => MAX_BATCH as u64 + 1,
            (_, 2) => self.rng.between(MAX_BATCH as u64 + 1, 40),
            (Mood::Keys, _) => self.rng.between(5, MAX_BATCH as u64),
            _ => self.rng.between(1, 4),
        };
        let written = node.highest_slot.len();
        for _ in 0..requests {
            self.request += 1;
            let (client, request) = (self.rng.below(9), self.request);
            field(&mut line, client);
            field(&mut line, request);
            line.push(b',');
            let new_key = match self.mood {
                Mood::Keys if written < MAX_WRITTEN => self.rng.chance(90),
                Mood::Keys => self.rng.chance(30),
                _ => false,
            };
            if new_key {
                self.fresh_key += 1;
                line.extend(format!("k{}", 1000 + self.fresh_key).into_bytes());
            } else {
                let key = self.key();
                line.extend(key);
            }
            if self.rng.one_in(8) {
                line.push(b',');
            } else {
                let value = if self.rng.one_in(30) {
                    self.rng.pick(&[0, u64::MAX, 1 << 63])
                } else {
                    self.rng.below(1000)
                };
                field(&mut line, value);
            }
        }
        line
    }

    fn reply(&mut self, node: &BodegaReplica) -> Vec<u8> {
        let ballot = if self.rng.one_in(12) {
            self.ballot(node)
        } else {
            node.bal_prepared
        };
        let accepting = |at: &usize| node.insts[*at].status == Status::Accepting;
        let len = node.insts.len();
        let slot = match self.rng.below(10) {
            // the first one open, so that the log commits in order
            0..=3 => (0..len).find(accepting),
            4 | 5 => (0..len).rev().find(accepting),
            _ => None,
        };
        let slot = match slot {
            Some(at) => (node.start_slot + at) as u64,
            None => self.held_slot(node),
        };
        // one that has not acked yet
        let acks = node
            .held(slot as usize)
            .and_then(|i| i.leader_bk.as_ref())
            .map(|bk| &bk.accept_acks);
        let peer = match acks {
            Some(acks) if self.rng.chance(60) => {
                let first = self.rng.below(self.population);
                (0..self.population)
                    .map(|i| (first + i) % self.population)
                    .find(|&r| !acks.get(r as u8).unwrap_or(false))
                    .unwrap_or(first)
            }
            _ => self.peer(),
        };
        fields("reply", &[peer, slot, ballot])
    }

    fn notice(&mut self, node: &BodegaReplica) -> Vec<u8> {
        let ballot = match self.rng.below(if node.is_leader() { 12 } else { 30 }) {
            0 => {
                let proposer = self.rng.below(self.population);
                self.ballot_by(node.bal_max_seen, proposer)
            }
            1 | 2 => self.ballot(node),
            _ => node.bal_max_seen,
        };
        let holding = node.insts.iter().position(|i| {
            i.bal == node.bal_max_seen
                && i.replica_bk
                    .as_ref()
                    .is_some_and(|bk| !bk.holding_reads.is_empty())
        });
        let mut peer = self.peer();
        let slot = match (self.rng.below(12), holding) {
            (0, _) => self.odd_slot(node),
            // early: at the end or a little above
            (1 | 2, _) => node.end() as u64 + self.rng.below(2),
            (3, _) => (node.end() as u64).saturating_sub(1),
            (4..=7, Some(at)) => {
                // one that has not noticed yet, so that reads are released
                if let Some(book) = &node.insts[at].replica_bk
                    && peer < self.population
                {
                    peer = (0..self.population)
                        .map(|i| (peer + i) % self.population)
                        .find(|&r| !book.accept_notices.get(r as u8).unwrap_or(false))
                        .unwrap_or(peer);
                }
                (node.start_slot + at) as u64
            }
            _ => self.held_slot(node),
        };
        fields("notice", &[peer, slot, ballot])
    }

    fn bars(&mut self, node: &BodegaReplica) -> Vec<u8> {
        let start = node.start_slot as u64;
        let done = node
            .insts
            .iter()
            .position(|i| i.status < Status::Committed)
            .unwrap_or(node.insts.len()) as u64;
        let free = node
            .insts
            .iter()
            .position(|i| {
                i.replica_bk
                    .as_ref()
                    .is_some_and(|bk| !bk.holding_reads.is_empty())
            })
            .unwrap_or(node.insts.len()) as u64;
        let commit = self.rng.between(node.commit_bar as u64, start + done);
        let commit = if self.rng.chance(60) {
            start + done
        } else {
            commit
        };
        let exec = self.rng.between(node.exec_bar as u64, commit);
        let keep = self.mood == Mood::Full && self.rng.chance(70);
        let full = self.mood != Mood::Full && node.insts.len() > MAX_SLOTS - 4;
        let (exec, new_start) = if full && self.rng.chance(70) {
            (commit, commit.min(start + free))
        } else if keep || self.rng.chance(40) {
            (exec, start)
        } else {
            let new_start = self.rng.between(start, exec.min(start + free).max(start));
            (exec, new_start)
        };
        let accept = match self.rng.below(8) {
            0 => self.bar(node),
            1 => self.rng.between(commit, node.end() as u64),
            _ => commit,
        };
        let mut bars = [new_start, accept, commit, exec];
        if self.rng.one_in(8) {
            let at = self.rng.below(4) as usize;
            bars[at] = match self.rng.below(4) {
                0 => bars[at].saturating_sub(1),
                1 => bars[at].saturating_add(1),
                2 => self.odd_slot(node),
                _ => node.end() as u64 + self.rng.below(2),
            };
        }
        fields("bars", &bars)
    }

    fn read(&mut self, node: &BodegaReplica) -> Vec<u8> {
        self.request += 1;
        let leases = match self.rng.below(20) {
            0 => self.quorum - 1,
            1 => self.rng.pick(&[0, 256, u64::MAX, 257]),
            2 => self.quorum + self.rng.below(3),
            _ => self.quorum,
        };
        let client = if self.rng.one_in(50) {
            u64::MAX
        } else {
            self.rng.below(5)
        };
        let mut line = fields("read", &[client, self.request, leases]);
        line.push(b',');
        // a key written in a held slot, or any
        let mut key = None;
        if !node.insts.is_empty() && self.rng.chance(60) {
            let at = if self.mood == Mood::Holds {
                // keep to one slot for a while, so that it fills up
                node.insts
                    .iter()
                    .position(|i| {
                        i.status == Status::Accepting
                            && i.replica_bk
                                .as_ref()
                                .is_some_and(|bk| bk.holding_reads.len() <= MAX_HELD)
                    })
                    .unwrap_or(0)
            } else {
                self.rng.below(node.insts.len() as u64) as usize
            };
            let reqs = &node.insts[at].reqs;
            if !reqs.is_empty() {
                let (_, req) = &reqs[self.rng.below(reqs.len() as u64) as usize];
                key = req.write_key().filter(|k| !k.starts_with(','));
            }
        }
        match key {
            Some(key) => line.extend(key.as_bytes()),
            None => {
                let key = self.key();
                line.extend(key);
            }
        }
        line
    }

    // ---- malformed lines ----

    /// Makes a line worse in one way; sometimes it stays good.
    fn spoil(&mut self, mut line: Vec<u8>) -> Vec<u8> {
        let commas: Vec<usize> = (0..line.len()).filter(|&i| line[i] == b',').collect();
        match self.rng.below(15) {
            0 => line.clear(),
            1 => line.push(b','),
            2 => line.extend_from_slice(b",0"),
            3 => {
                if let Some(&last) = commas.last() {
                    line.truncate(last);
                } else {
                    line.extend_from_slice(b",");
                }
            }
            4 => line[0] = line[0].to_ascii_uppercase(),
            5 => line.insert(0, b' '),
            6 => line.push(b'\r'),
            7 => {
                // a field that is empty, signed or no number
                if commas.is_empty() {
                    line.extend_from_slice(b",x");
                } else {
                    let at = self.rng.pick(&commas) + 1;
                    let end = line[at..]
                        .iter()
                        .position(|&b| b == b',')
                        .map_or(line.len(), |n| at + n);
                    let odd: &[u8] = self.rng.pick(&[
                        b"".as_slice(),
                        b"+1",
                        b"-0",
                        b" 1",
                        b"1 ",
                        b"0x1",
                        b"1_0",
                        b"18446744073709551616",
                        b"99999999999999999999",
                        b"\xff",
                        b"18446744073709551615",
                        b"k1",
                    ]);
                    line.splice(at..end, odd.iter().copied());
                }
            }
            8 => {
                let at = self.rng.below(line.len() as u64 + 1) as usize;
                line.insert(at, self.rng.pick(b",x 0k\t\x01\xc3\"-+"));
            }
            9 => {
                let at = self.rng.below(line.len() as u64) as usize;
                line.remove(at);
            }
            10 => {
                // longer than a line may be, by zeros in the last field
                let at = commas.last().map_or(line.len(), |&c| c + 1);
                let zeros =
                    (MAX_LINE + 1).saturating_sub(line.len()) + self.rng.below(3) as usize * 40;
                line.splice(at..at, vec![b'0'; zeros]);
            }
            11 => line = b"heard,0,0,2,0,0,0".to_vec(),
            12 => {
                line = self
                    .rng
                    .pick(&[
                        b"state".as_slice(),
                        b"accept,0,0,0",
                        b"nodes,0,3,2",
                        b"readx,1,1,1,k1",
                        b"rea,1,1,1,k1",
                        b"#",
                        b",",
                        b",,,",
                    ])
                    .to_vec();
            }
            13 => {
                // at the very edge of the length
                let at = commas.last().map_or(line.len(), |&c| c + 1);
                let zeros = MAX_LINE.saturating_sub(line.len());
                line.splice(at..at, vec![b'0'; zeros]);
            }
            _ => {
                // leftovers after whole groups of a record
                line = fields("record", &[0, 257, 1, 1]);
                line.extend_from_slice(self.rng.pick(&[
                    b"".as_slice(),
                    b",k1",
                    b",k1,5,6",
                    b",k1,5,6,7",
                    b",k1,x",
                    b",k1, ",
                ]));
            }
        }
        line
    }

    /// Spells a number field with leading zeros: the value is what counts.
    fn respell_number(&mut self, mut line: Vec<u8>) -> Vec<u8> {
        if let Some(at) = line.iter().position(|&b| b == b',')
            && !line.starts_with(b"range")
        {
            let zeros = self.rng.pick(&[1, 2, 30]);
            if line.len() + zeros <= MAX_LINE {
                line.splice(at + 1..=at, vec![b'0'; zeros]);
            }
        }
        line
    }
}

/// The script of a seed and the oracle's answer to it, both appended.
pub fn script(
    seed: u64,
    lines: u64,
    input: &mut Vec<u8>,
    output: &mut Vec<u8>,
    mut coverage: Option<&mut Coverage>,
) {
    let mut generator = Generator::new(seed);
    let mut replay = Replay::new();
    for i in 0..lines {
        let line = generator.next_line(&replay);
        if let Some(coverage) = coverage.as_deref_mut() {
            let watch = Watch::new(&replay);
            let (kind, refusal) = replay.line(&line, output);
            coverage.count(kind, refusal, &watch.met(kind, refusal, &replay), &replay);
        } else {
            replay.line(&line, output);
        }
        input.extend_from_slice(&line);
        // the last line may lack its newline, if it has a byte
        if i + 1 < lines || line.is_empty() || !seed.is_multiple_of(5) {
            input.push(b'\n');
        }
    }
}
