// A plain Rust ledger of the shape of crates/bt_ledger, which serves transactions as the case `serve` of
// crates/bt_ledger_cases does: main WINDOW TRANSACTIONS ITEMS BACKWARDS.
use std::collections::VecDeque;

#[derive(Clone, Copy, PartialEq)]
enum State {
    Untried,
    Good,
    Bad,
}

#[allow(dead_code)]
#[derive(Clone, Copy, PartialEq)]
enum Stage {
    Untried,
    Waiting,
    Released,
}

#[allow(dead_code)]
enum Demand {
    Leaf { leaf: u32, sink: u32, bytes: Vec<u8>, state: State },
    Drop,
    Reject(String),
    All(Vec<Demand>),
    First(Vec<Demand>),
    Hold { node: u32, ends: bool, size: u64, child: Box<Demand>, stage: Stage },
}

#[derive(Clone, Copy, PartialEq)]
enum Outcome {
    Open,
    Met,
    Lost,
}

enum Todo {
    Put { leaf: u32 },
    Wait,
    Settled(bool),
}

impl Demand {
    fn outcome(&self) -> Outcome {
        match self {
            Demand::Leaf { state: State::Untried, .. } => Outcome::Open,
            Demand::Leaf { state: State::Good, .. } => Outcome::Met,
            Demand::Leaf { state: State::Bad, .. } => Outcome::Lost,
            Demand::Drop => Outcome::Met,
            Demand::Reject(_) => Outcome::Lost,
            Demand::All(children) => {
                let mut sum = Outcome::Met;
                for child in children {
                    match child.outcome() {
                        Outcome::Open => return Outcome::Open,
                        Outcome::Met => {}
                        Outcome::Lost => sum = Outcome::Lost,
                    }
                }
                sum
            }
            Demand::First(children) => {
                for child in children {
                    match child.outcome() {
                        Outcome::Lost => {}
                        other => return other,
                    }
                }
                Outcome::Lost
            }
            Demand::Hold { child, stage, .. } => {
                if *stage == Stage::Released { child.outcome() } else { Outcome::Open }
            }
        }
    }

    fn todo(&self) -> Option<Todo> {
        match self {
            Demand::Leaf { leaf, state: State::Untried, .. } => Some(Todo::Put { leaf: *leaf }),
            Demand::Leaf { state, .. } => Some(Todo::Settled(*state == State::Good)),
            Demand::Drop => Some(Todo::Settled(true)),
            Demand::Reject(_) => Some(Todo::Settled(false)),
            Demand::All(children) => {
                let mut sum = Some(true);
                for child in children {
                    match child.todo() {
                        Some(Todo::Settled(met)) => sum = sum.map(|all| all && met),
                        None => sum = None,
                        next => return next,
                    }
                }
                sum.map(Todo::Settled)
            }
            Demand::First(children) => {
                for child in children {
                    match child.todo() {
                        Some(Todo::Settled(false)) => {}
                        other => return other,
                    }
                }
                Some(Todo::Settled(false))
            }
            Demand::Hold { child, stage, .. } => match stage {
                Stage::Untried => Some(Todo::Wait),
                Stage::Waiting => None,
                Stage::Released => child.todo(),
            },
        }
    }

    fn begun(&self) -> bool {
        match self {
            Demand::Leaf { state, .. } => *state != State::Untried,
            Demand::Drop | Demand::Reject(_) => false,
            Demand::All(children) | Demand::First(children) => children.iter().any(Demand::begun),
            Demand::Hold { child, stage, .. } => *stage != Stage::Untried || child.begun(),
        }
    }

    fn active(&self) -> u32 {
        match self {
            Demand::Leaf { .. } | Demand::Drop | Demand::Reject(_) => 0,
            Demand::All(children) | Demand::First(children) => children.iter().map(Demand::active).sum(),
            Demand::Hold { child, stage, .. } => child.active() + u32::from(*stage != Stage::Released),
        }
    }

    fn holds(&self) -> u32 {
        match self {
            Demand::Leaf { .. } | Demand::Drop | Demand::Reject(_) => 0,
            Demand::All(children) | Demand::First(children) => children.iter().map(Demand::holds).sum(),
            Demand::Hold { child, .. } => child.holds() + 1,
        }
    }

    fn settle(&mut self, number: u32, accepted: bool) {
        match self {
            Demand::Leaf { leaf, state, .. } => {
                if *leaf == number && *state == State::Untried {
                    *state = if accepted { State::Good } else { State::Bad };
                }
            }
            Demand::Drop | Demand::Reject(_) => {}
            Demand::All(children) | Demand::First(children) => {
                for child in children {
                    child.settle(number, accepted);
                }
            }
            Demand::Hold { child, .. } => child.settle(number, accepted),
        }
    }

    fn booked(&self) -> u32 {
        if self.begun() && self.outcome() == Outcome::Open { self.active() } else { 0 }
    }
}

struct Routed {
    from: Vec<u64>,
    demand: Demand,
}

#[derive(Clone, Copy)]
struct Count {
    left: u64,
    lost: Option<u32>,
    next: u64,
}

struct Routes {
    parts: Vec<Routed>,
    counts: Vec<Count>,
}

#[allow(dead_code)]
struct Open {
    number: u64,
    moment: u64,
    parts: Vec<Routed>,
    counts: Vec<Count>,
    first: u64,
    last: u64,
    unanswered: u64,
}

#[allow(dead_code)]
enum Slot {
    Free,
    Out { number: u64, moment: u64, items: u64 },
    Given(Open),
}

#[derive(Clone, Copy)]
enum Verdict {
    Ack,
    Refused(u32),
}

impl Open {
    fn make(number: u64, moment: u64, items: u64, routes: Routes) -> Open {
        let Routes { parts, mut counts } = routes;
        counts.extend((0..items).map(|_| Count { left: 1, lost: None, next: 0 }));
        for (at, routed) in parts.iter().enumerate() {
            for item in &routed.from {
                let count = &mut counts[*item as usize];
                match routed.demand.outcome() {
                    Outcome::Open => count.left += 1,
                    Outcome::Met => {}
                    Outcome::Lost => count.lost = count.lost.or(Some(at as u32)),
                }
            }
        }
        let (mut first, mut last) = (items, 0);
        for item in (0..items).rev() {
            if counts[item as usize].left == 1 {
                counts[item as usize].next = first;
                if first == items {
                    last = item;
                }
                first = item;
            }
        }
        Open { number, moment, parts, counts, first, last, unanswered: items }
    }

    fn link(&mut self, item: u64) {
        if item < self.first {
            self.counts[item as usize].next = self.first;
            if self.first == self.counts.len() as u64 {
                self.last = item;
            }
            self.first = item;
            return;
        }
        let mut at = self.last;
        if item < self.last {
            at = self.first;
            while self.counts[at as usize].next < item {
                at = self.counts[at as usize].next;
            }
        }
        self.counts[item as usize].next = self.counts[at as usize].next;
        self.counts[at as usize].next = item;
        self.last = self.last.max(item);
    }

    fn settle(&mut self, part: u32, leaf: u32, accepted: bool) -> (u32, u32) {
        let routed = &mut self.parts[part as usize];
        let (before, was_open) = (routed.demand.booked(), routed.demand.outcome() == Outcome::Open);
        routed.demand.settle(leaf, accepted);
        let (after, outcome) = (routed.demand.booked(), routed.demand.outcome());
        if was_open && outcome != Outcome::Open {
            for i in 0..self.parts[part as usize].from.len() {
                let item = self.parts[part as usize].from[i];
                if self.counts[item as usize].left == 2 {
                    self.link(item);
                }
                let count = &mut self.counts[item as usize];
                count.left -= 1;
                if outcome == Outcome::Lost {
                    count.lost = Some(count.lost.map_or(part, |least| least.min(part)));
                }
            }
        }
        (before, after)
    }
}

#[allow(dead_code)]
struct Ledger {
    slots: Vec<Slot>,
    vacant: Vec<u32>,
    chains: Vec<VecDeque<u64>>,
    booked: u32,
    entries: u32,
}

impl Ledger {
    fn make(window: u32) -> Ledger {
        Ledger {
            slots: (0..window).map(|_| Slot::Free).collect(),
            vacant: (0..window).collect(),
            chains: vec![VecDeque::new(); 3],
            booked: 0,
            entries: 64,
        }
    }

    fn admit(&mut self, number: u64, moment: u64, items: u64) -> Option<u32> {
        let slot = self.vacant.pop()?;
        self.slots[slot as usize] = Slot::Out { number, moment, items };
        Some(slot)
    }

    fn give(&mut self, slot: u32, routes: Routes) {
        let place = &mut self.slots[slot as usize];
        if let Slot::Out { number, moment, items } = *place {
            *place = Slot::Given(Open::make(number, moment, items, routes));
        }
    }

    fn open(&self, slot: u32) -> Option<&Open> {
        match &self.slots[slot as usize] {
            Slot::Given(open) => Some(open),
            _ => None,
        }
    }

    fn settle(&mut self, slot: u32, part: u32, leaf: u32, accepted: bool) {
        if let Slot::Given(open) = &mut self.slots[slot as usize] {
            let (before, after) = open.settle(part, leaf, accepted);
            self.booked = self.booked - before + after;
        }
    }

    fn due(&self, slot: u32) -> Option<u64> {
        let open = self.open(slot)?;
        if open.first == open.counts.len() as u64 { None } else { Some(open.first) }
    }

    fn verdict_of(&self, slot: u32, item: u64) -> Option<Verdict> {
        let count = self.open(slot)?.counts[item as usize];
        if count.left > 1 {
            return None;
        }
        Some(count.lost.map_or(Verdict::Ack, Verdict::Refused))
    }

    fn answered(&mut self, slot: u32, item: u64) {
        if let Slot::Given(open) = &mut self.slots[slot as usize] {
            open.first = open.counts[item as usize].next;
            open.counts[item as usize].left = 0;
            open.unanswered -= 1;
        }
    }

    fn close(&mut self, slot: u32) -> Option<Routes> {
        match std::mem::replace(&mut self.slots[slot as usize], Slot::Free) {
            Slot::Given(Open { parts, counts, .. }) => {
                self.vacant.push(slot);
                Some(Routes { parts, counts })
            }
            _ => None,
        }
    }
}

fn routes(items: u64) -> Routes {
    let mut parts = Vec::new();
    for item in 0..items {
        let demand = Demand::Leaf { leaf: 0, sink: 0, bytes: b"record".to_vec(), state: State::Untried };
        parts.push(Routed { from: vec![item], demand });
    }
    Routes { parts, counts: Vec::with_capacity(items as usize) }
}

fn begin(ledger: &mut Ledger, number: u64, items: u64) {
    let routes = routes(items);
    if let Some(slot) = ledger.admit(number, number, items) {
        ledger.give(slot, routes);
    }
}

fn settle(ledger: &mut Ledger, slot: u32, part: u32) {
    let Some(open) = ledger.open(slot) else { return };
    let Some(routed) = open.parts.get(part as usize) else { return };
    if ledger.booked + routed.demand.holds() > ledger.entries {
        return;
    }
    if let Some(Todo::Put { leaf }) = routed.demand.todo() {
        ledger.settle(slot, part, leaf, true);
    }
}

fn answer(ledger: &mut Ledger, slot: u32) -> u32 {
    match ledger.due(slot) {
        Some(item) => {
            let part = match ledger.verdict_of(slot, item) {
                Some(Verdict::Refused(part)) => part,
                _ => 0,
            };
            ledger.answered(slot, item);
            part
        }
        None => 0,
    }
}

fn main() {
    let words: Vec<u64> = std::env::args().skip(1).map(|word| word.parse().unwrap()).collect();
    let (window, transactions, items, backwards) = (words[0] as u32, words[1], words[2], words[3] > 0);
    let mut ledger = Ledger::make(window);
    for number in 0..window {
        begin(&mut ledger, number as u64, items);
    }
    let mut sum = 0;
    for number in 0..transactions {
        let slot = (number % window as u64) as u32;
        for i in 0..items as u32 {
            let part = if backwards { items as u32 - 1 - i } else { i };
            settle(&mut ledger, slot, part);
            sum += answer(&mut ledger, slot);
        }
        if ledger.open(slot).is_some_and(|open| open.unanswered == 0) {
            ledger.close(slot);
        }
        begin(&mut ledger, number, items);
    }
    println!("{} open, {sum}", ledger.slots.len() - ledger.vacant.len());
}
