//! The rollover ledger as document 01 has it: a list of stages, and the refusals in their order.

pub const LEDGER_SIZE: usize = 68;
pub const RECORD_SIZE: usize = 32;
pub const SECRETS_ROOM: usize = 32;
pub const LINE_ROOM: usize = 47;
pub const LATEST: u64 = 281_474_976_710_655;
pub const WAIT: u64 = 3_601;

pub const START: u8 = 0;
pub const OPEN: u8 = 1;
pub const LEARN: u8 = 2;
pub const SWITCH: u8 = 3;
pub const DROP: u8 = 4;
pub const CANCEL: u8 = 5;

pub type Secret = [u8; 16];

#[derive(Clone)]
pub struct Step {
    pub kind: u8,
    pub member: u8,
    pub time: u64,
    pub secret: Secret,
}

impl Step {
    pub fn of(record: &[u8]) -> Step {
        Step {
            kind: record[0],
            member: record[1],
            time: u64::from_be_bytes(record[8..16].try_into().unwrap()),
            secret: record[16..32].try_into().unwrap(),
        }
    }

    pub fn record(&self, spare: [u8; 6]) -> [u8; RECORD_SIZE] {
        [&[self.kind, self.member], &spare[..], &self.time.to_be_bytes(), &self.secret].concat().try_into().unwrap()
    }
}

#[derive(Clone, Default)]
pub struct Ledger {
    /// The last accepted step's time.
    pub last: Option<u64>,
    /// None before START.
    pub fleet: Option<Fleet>,
}

#[derive(Clone)]
pub struct Fleet {
    pub current: Secret,
    /// The secret of the open rollover.
    pub new: Option<Secret>,
    pub stages: Vec<u8>,
    /// The last accepted SWITCH's time.
    pub switched: Option<u64>,
}

impl Fleet {
    pub fn any_at(&self, stages: &[u8]) -> bool {
        self.stages.iter().any(|stage| stages.contains(stage))
    }
}

impl Ledger {
    /// A step offered: 0, or the refusal, and then nothing is altered.
    pub fn step(&mut self, step: &Step) -> u8 {
        let refusal = self.refusal(step);
        if refusal == 0 {
            self.accept(step);
            self.last = Some(step.time);
        }
        refusal
    }

    fn refusal(&self, step: &Step) -> u8 {
        if step.kind > CANCEL {
            return 1;
        }
        if step.time > LATEST {
            return 2;
        }
        if self.last.is_some_and(|last| step.time < last) {
            return 3;
        }
        match (&self.fleet, step.kind) {
            (Some(_), START) => 4,
            (None, START) if step.member == 0 || step.member > 32 => 7,
            (None, START) => 0,
            (None, _) => 5,
            (Some(fleet), OPEN) => fleet.open_refusal(step),
            (Some(fleet), _) => fleet.rollover_refusal(step),
        }
    }

    fn accept(&mut self, step: &Step) {
        let member = usize::from(step.member);
        let Some(fleet) = &mut self.fleet else {
            self.fleet = Some(Fleet { current: step.secret, new: None, stages: vec![0; member], switched: None });
            return;
        };
        match step.kind {
            OPEN => fleet.new = Some(step.secret),
            CANCEL => fleet.close(),
            _ => fleet.stages[member] += 1,
        }
        if step.kind == SWITCH {
            fleet.switched = Some(step.time);
        }
        if step.kind == DROP && !fleet.any_at(&[0, 1, 2]) {
            fleet.current = step.secret;
            fleet.close();
        }
    }

    /// What a member holds: the generating secret first, and nothing where it is no member.
    pub fn secrets(&self, member: u32) -> Vec<u8> {
        let Some(fleet) = &self.fleet else { return Vec::new() };
        let stage = usize::try_from(member).ok().and_then(|member| fleet.stages.get(member));
        match (stage, fleet.new) {
            (None, _) => Vec::new(),
            (Some(1), Some(new)) => [fleet.current, new].concat(),
            (Some(2), Some(new)) => [new, fleet.current].concat(),
            (Some(3), Some(new)) => new.to_vec(),
            _ => fleet.current.to_vec(),
        }
    }

    pub fn line(&self, number: u64, kind: u8, answer: u8) -> String {
        let at = |stage: u8| self.fleet.iter().flat_map(|fleet| &fleet.stages).filter(|at| **at == stage).count();
        let open = self.fleet.as_ref().is_some_and(|fleet| fleet.new.is_some());
        format!("{number} {kind} {answer} {} {} {} {} {}\n", u8::from(open), at(0), at(1), at(2), at(3))
    }
}

impl Fleet {
    fn open_refusal(&self, step: &Step) -> u8 {
        match self.new {
            Some(_) => 4,
            None if step.secret == self.current => 6,
            None => 0,
        }
    }

    /// Steps 2 to 5: refusals 5 to 10.
    fn rollover_refusal(&self, step: &Step) -> u8 {
        let Some(new) = self.new else { return 5 };
        if step.secret != new {
            return 6;
        }
        if step.kind != CANCEL {
            match self.stages.get(usize::from(step.member)) {
                None => return 7,
                Some(stage) if *stage != step.kind - LEARN => return 8,
                Some(_) => {}
            }
        }
        let apart: &[u8] = match step.kind {
            SWITCH => &[0],
            DROP => &[0, 1],
            CANCEL => &[2, 3],
            _ => &[],
        };
        if self.any_at(apart) {
            return 9;
        }
        if step.kind == DROP && self.switched.is_some_and(|switched| step.time < switched + WAIT) {
            return 10;
        }
        0
    }

    fn close(&mut self) {
        self.new = None;
        self.stages.fill(0);
    }
}
