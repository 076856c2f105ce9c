//! Items, and the list that the hubs write them into in the order sent.

use std::cell::RefCell;
use std::rc::Rc;

#[derive(Debug, Clone, Copy, PartialEq, Eq)]
pub enum Item {
    Value {
        client: u64,
        request: u64,
        value: u64,
    },
    Absent {
        client: u64,
        request: u64,
    },
    Store {
        client: u64,
        request: u64,
    },
    Pass {
        client: u64,
        request: u64,
    },
    Hold {
        client: u64,
        request: u64,
        slot: u64,
    },
    Retry {
        client: u64,
        request: u64,
        leader: Option<u8>,
    },
    Resend {
        slot: u64,
        peer: u8,
    },
    Commit {
        slot: u64,
    },
    Lead {
        step_up: bool,
    },
    Prelog {
        slot: u64,
    },
    Prepare {
        slot: u64,
        ballot: u64,
    },
    Span {
        start: u128,
        end: u128,
        mask: u64,
    },
    Rest {
        mask: u64,
    },
}

impl Item {
    pub const KINDS: [&'static str; 14] = [
        "value", "absent", "store", "pass", "hold", "retry", "resend", "commit", "lead,1",
        "lead,0", "prelog", "prepare", "span", "rest",
    ];

    /// Place in `KINDS`.
    #[must_use]
    pub fn kind(&self) -> usize {
        match self {
            Item::Value { .. } => 0,
            Item::Absent { .. } => 1,
            Item::Store { .. } => 2,
            Item::Pass { .. } => 3,
            Item::Hold { .. } => 4,
            Item::Retry { .. } => 5,
            Item::Resend { .. } => 6,
            Item::Commit { .. } => 7,
            Item::Lead { step_up: true } => 8,
            Item::Lead { step_up: false } => 9,
            Item::Prelog { .. } => 10,
            Item::Prepare { .. } => 11,
            Item::Span { .. } => 12,
            Item::Rest { .. } => 13,
        }
    }

    /// Appends the item's line.
    pub fn write(&self, out: &mut Vec<u8>) {
        match *self {
            Item::Value {
                client,
                request,
                value,
            } => line(out, b"value", &[client, request, value]),
            Item::Absent { client, request } => line(out, b"absent", &[client, request]),
            Item::Store { client, request } => line(out, b"store", &[client, request]),
            Item::Pass { client, request } => line(out, b"pass", &[client, request]),
            Item::Hold {
                client,
                request,
                slot,
            } => line(out, b"hold", &[client, request, slot]),
            Item::Retry {
                client,
                request,
                leader: Some(leader),
            } => line(out, b"retry", &[client, request, u64::from(leader)]),
            Item::Retry {
                client,
                request,
                leader: None,
            } => {
                line(out, b"retry", &[client, request]);
                out.pop();
                out.extend_from_slice(b",-\n");
            }
            Item::Resend { slot, peer } => line(out, b"resend", &[slot, u64::from(peer)]),
            Item::Commit { slot } => line(out, b"commit", &[slot]),
            Item::Lead { step_up } => line(out, b"lead", &[u64::from(step_up)]),
            Item::Prelog { slot } => line(out, b"prelog", &[slot]),
            Item::Prepare { slot, ballot } => line(out, b"prepare", &[slot, ballot]),
            Item::Span { start, end, mask } => {
                out.extend_from_slice(b"span,");
                write_u128(out, start);
                out.push(b',');
                write_u128(out, end);
                out.push(b',');
                write_u64(out, mask);
                out.push(b'\n');
            }
            Item::Rest { mask } => line(out, b"rest", &[mask]),
        }
    }
}

fn line(out: &mut Vec<u8>, name: &[u8], fields: &[u64]) {
    out.extend_from_slice(name);
    for &field in fields {
        out.push(b',');
        write_u64(out, field);
    }
    out.push(b'\n');
}

pub fn write_u64(out: &mut Vec<u8>, mut number: u64) {
    let mut digits = [0; 20];
    let mut at = digits.len();
    loop {
        at -= 1;
        digits[at] = b'0' + (number % 10) as u8;
        number /= 10;
        if number == 0 {
            break;
        }
    }
    out.extend_from_slice(&digits[at..]);
}

pub fn write_u128(out: &mut Vec<u8>, number: u128) {
    if let Ok(small) = u64::try_from(number) {
        write_u64(out, small);
    } else {
        out.extend_from_slice(number.to_string().as_bytes());
    }
}

/// The answer area, shared by a replica's hubs.
#[derive(Clone, Default)]
pub(crate) struct Recorder(Rc<RefCell<Vec<Item>>>);

impl Recorder {
    #[inline]
    pub(crate) fn push(&self, item: Item) {
        self.0.borrow_mut().push(item);
    }

    pub(crate) fn len(&self) -> usize {
        self.0.borrow().len()
    }

    pub(crate) fn reserve(&self, items: usize) {
        self.0.borrow_mut().reserve(items);
    }

    #[inline]
    pub(crate) fn clear(&self) {
        self.0.borrow_mut().clear();
    }

    /// Moves the recorded items to the end of `to`.
    pub(crate) fn drain_into(&self, to: &mut Vec<Item>) {
        to.append(&mut self.0.borrow_mut());
    }
}
