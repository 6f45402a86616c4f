//! The rules of a worker placement service, written out as plainly as possible.
//!
//! Workers (machines) are placed with tenants (build queues). Each worker has a list of tenants it
//! would go to, best first; each tenant has a rule that says which workers of a set it would choose.
//! This file has, in this order: sets of workers, the rules of choice, settling, checking, rotations,
//! the board with its calls, the bytes of a sheet, and the bytes of a journal.
//!
//! Nothing here is clever. Each piece follows its definition word by word, so that it can be believed
//! after one reading and used to judge a faster or a proved program.

use std::fmt;

/// A sheet names 1 to 64 workers and 1 to 16 tenants, both numbered from 0.
pub const MOST_WORKERS: usize = 64;
pub const MOST_TENANTS: usize = 16;

/// The place of a worker that is with no tenant.
pub const NONE: u8 = 255;

// ------------------------------------------------------------------------------------------------
// Sets of workers
// ------------------------------------------------------------------------------------------------

/// A set of workers: for each of the numbers 0 to 63, whether it is in.
#[derive(Clone, Copy, PartialEq, Eq, Debug)]
pub struct Set {
    has: [bool; MOST_WORKERS],
}

impl Set {
    pub fn empty() -> Set {
        Set { has: [false; MOST_WORKERS] }
    }

    /// The set whose members are the bits of a number that are 1; bit w stands for worker w.
    pub fn from_bits(bits: u64) -> Set {
        let mut set = Set::empty();
        for w in 0..MOST_WORKERS {
            set.has[w] = (bits >> w) & 1 == 1;
        }
        set
    }

    pub fn bits(&self) -> u64 {
        (0..MOST_WORKERS).filter(|&w| self.has[w]).map(|w| 1u64 << w).sum()
    }

    /// Whether a worker is in the set; a number past 63 never is.
    pub fn has(&self, worker: u8) -> bool {
        (worker as usize) < MOST_WORKERS && self.has[worker as usize]
    }

    pub fn insert(&mut self, worker: u8) {
        self.has[worker as usize] = true;
    }

    /// This set and one worker more.
    pub fn with(&self, worker: u8) -> Set {
        let mut set = *self;
        set.insert(worker);
        set
    }

    /// The members of this set that are not in the other, by rising number.
    pub fn members_not_in(&self, other: &Set) -> Vec<u8> {
        (0..MOST_WORKERS as u8).filter(|&w| self.has(w) && !other.has(w)).collect()
    }
}

// ------------------------------------------------------------------------------------------------
// Rules of choice
// ------------------------------------------------------------------------------------------------

/// A policy has a count of tenants, at most 16. For a tenant and a set of workers it answers the set
/// of those it chooses. For a tenant number at or past its count it chooses nobody.
///
/// Every policy keeps four laws. Let C(Z) be what one tenant chooses out of Z, and Z' any set within Z:
/// inside          C(Z) is within Z;
/// substitutable   a worker of C(Z) that is in Z' is in C(Z');
/// monotone        C(Z) has at least as many workers as C(Z');
/// consistent      if C(Z) is within Z', then C(Z') is C(Z).
pub trait Policy {
    fn count(&self) -> usize;
    fn choose(&self, tenant: usize, set: &Set) -> Set;
}

/// Ranked: the first `cap` workers of the list that are in the set.
#[derive(Clone, PartialEq, Eq, Debug)]
pub struct RankedTenant {
    pub cap: u8,
    pub list: Vec<u8>,
}

pub struct Ranked {
    pub tenants: Vec<RankedTenant>,
}

impl Policy for Ranked {
    fn count(&self) -> usize {
        self.tenants.len()
    }

    fn choose(&self, tenant: usize, set: &Set) -> Set {
        let mut chosen = Set::empty();
        if tenant >= self.count() {
            return chosen;
        }
        let rule = &self.tenants[tenant];
        let mut taken = 0;
        for &worker in &rule.list {
            if set.has(worker) && taken < rule.cap {
                chosen.insert(worker);
                taken += 1;
            }
        }
        chosen
    }
}

/// Seated: walk the whole list and take a worker of the set if fewer than the overall cap are taken by
/// then, and fewer of its class than the cap of that class.
#[derive(Clone, PartialEq, Eq, Debug)]
pub struct SeatedTenant {
    pub cap: u8,
    pub class_caps: [u8; 8],
    pub list: Vec<u8>,
}

pub struct Seated {
    /// The class, 0 to 7, of each worker.
    pub classes: [u8; MOST_WORKERS],
    pub tenants: Vec<SeatedTenant>,
}

impl Policy for Seated {
    fn count(&self) -> usize {
        self.tenants.len()
    }

    fn choose(&self, tenant: usize, set: &Set) -> Set {
        let mut chosen = Set::empty();
        if tenant >= self.count() {
            return chosen;
        }
        let rule = &self.tenants[tenant];
        let mut taken = 0;
        let mut taken_of_class = [0u8; 8];
        for &worker in &rule.list {
            let class = self.classes[worker as usize] as usize;
            if set.has(worker) && taken < rule.cap && taken_of_class[class] < rule.class_caps[class] {
                chosen.insert(worker);
                taken += 1;
                taken_of_class[class] += 1;
            }
        }
        chosen
    }
}

/// Table: n different workers, 0 to 8, and 2^n entries. Bit i of an entry's index says that the i-th of
/// these workers is in the set, bit i of the entry that it is chosen. Other workers are never chosen.
#[derive(Clone, PartialEq, Eq, Debug)]
pub struct TableTenant {
    pub workers: Vec<u8>,
    pub entries: Vec<u8>,
}

pub struct Table {
    pub tenants: Vec<TableTenant>,
}

impl Policy for Table {
    fn count(&self) -> usize {
        self.tenants.len()
    }

    fn choose(&self, tenant: usize, set: &Set) -> Set {
        let mut chosen = Set::empty();
        if tenant >= self.count() {
            return chosen;
        }
        let rule = &self.tenants[tenant];
        let mut index = 0;
        for (i, &worker) in rule.workers.iter().enumerate() {
            if set.has(worker) {
                index += 1usize << i;
            }
        }
        let entry = rule.entries[index];
        for (i, &worker) in rule.workers.iter().enumerate() {
            if (entry >> i) & 1 == 1 {
                chosen.insert(worker);
            }
        }
        chosen
    }
}

/// Pair: tenants below the first policy's count are put to the first; the others, less that count, to
/// the second. Its count is the sum, cut at 16.
pub struct Pair {
    pub first: Box<dyn Policy>,
    pub second: Box<dyn Policy>,
}

impl Policy for Pair {
    fn count(&self) -> usize {
        (self.first.count() + self.second.count()).min(MOST_TENANTS)
    }

    fn choose(&self, tenant: usize, set: &Set) -> Set {
        if tenant >= self.count() {
            Set::empty()
        } else if tenant < self.first.count() {
            self.first.choose(tenant, set)
        } else {
            self.second.choose(tenant - self.first.count(), set)
        }
    }
}

/// Quarantine: a fixed set of workers is removed, and the rest is put to the policy below.
pub struct Quarantine {
    pub removed: Set,
    pub below: Box<dyn Policy>,
}

impl Policy for Quarantine {
    fn count(&self) -> usize {
        self.below.count()
    }

    fn choose(&self, tenant: usize, set: &Set) -> Set {
        let mut rest = Set::empty();
        for worker in set.members_not_in(&self.removed) {
            rest.insert(worker);
        }
        self.below.choose(tenant, &rest)
    }
}

// ------------------------------------------------------------------------------------------------
// Lists and placements
// ------------------------------------------------------------------------------------------------

/// How many tenants there are, and each worker's list of tenants, best first. A worker and a tenant on
/// its list are called a pair.
#[derive(Clone, PartialEq, Eq, Debug)]
pub struct Lists {
    pub tenants: usize,
    pub lists: Vec<Vec<u8>>,
}

impl Lists {
    pub fn workers(&self) -> usize {
        self.lists.len()
    }

    pub fn pairs(&self) -> usize {
        self.lists.iter().map(|list| list.len()).sum()
    }
}

/// Byte w is the tenant of worker w, or 255. A worker likes no tenant less than any on its list.
pub type Placement = [u8; MOST_WORKERS];

/// The workers that a placement puts with a tenant. Bytes past the last worker are not looked at.
pub fn staff(lists: &Lists, placement: &Placement, tenant: u8) -> Set {
    let mut set = Set::empty();
    for worker in 0..lists.workers() {
        if placement[worker] == tenant {
            set.insert(worker as u8);
        }
    }
    set
}

// ------------------------------------------------------------------------------------------------
// Settling
// ------------------------------------------------------------------------------------------------

/// Settling starts with all pairs open. In a round each worker stands at the first tenant of its open
/// pairs, each tenant chooses out of those standing there, and the pair of each worker not chosen is
/// closed. The round that closes nothing is the last; its placement is the result. Every round counts.
pub fn settle(lists: &Lists, policy: &dyn Policy) -> (Placement, usize) {
    let mut open: Vec<Vec<bool>> = lists.lists.iter().map(|list| vec![true; list.len()]).collect();
    let mut rounds = 0;
    loop {
        rounds += 1;
        let mut standing = [NONE; MOST_WORKERS];
        for worker in 0..lists.workers() {
            if let Some(first) = open[worker].iter().position(|&is_open| is_open) {
                standing[worker] = lists.lists[worker][first];
            }
        }
        let mut closed_one = false;
        for tenant in 0..lists.tenants as u8 {
            let here = staff(lists, &standing, tenant);
            let chosen = policy.choose(tenant as usize, &here);
            for worker in here.members_not_in(&chosen) {
                let list = &lists.lists[worker as usize];
                let at = list.iter().position(|&listed| listed == tenant).unwrap();
                open[worker as usize][at] = false;
                closed_one = true;
            }
        }
        if !closed_one {
            assert!(rounds <= 1 + lists.pairs());
            return (standing, rounds);
        }
    }
}

// ------------------------------------------------------------------------------------------------
// Checking a placement
// ------------------------------------------------------------------------------------------------

/// Whether a placement is stable, as a number, a worker and a tenant; (0, 0, 0) says that it is.
/// 30: the lowest worker whose tenant is not on its list, and its byte.
/// 31: the lowest tenant that would not choose all its workers out of themselves, and the lowest worker
///     it does not choose.
/// 32: a pair that blocks: the worker likes the tenant better than its place, and the tenant would
///     choose it out of its own workers and this one. Of these the lowest worker's, first on its list.
/// They are tried in this order.
pub fn check(lists: &Lists, policy: &dyn Policy, placement: &Placement) -> (u8, u8, u8) {
    for worker in 0..lists.workers() {
        let tenant = placement[worker];
        if tenant != NONE && !lists.lists[worker].contains(&tenant) {
            return (30, worker as u8, tenant);
        }
    }
    for tenant in 0..lists.tenants as u8 {
        let own = staff(lists, placement, tenant);
        let chosen = policy.choose(tenant as usize, &own);
        if let Some(&worker) = own.members_not_in(&chosen).first() {
            return (31, worker, tenant);
        }
    }
    for worker in 0..lists.workers() as u8 {
        for &tenant in &lists.lists[worker as usize] {
            if tenant == placement[worker as usize] {
                break;
            }
            if would_choose(lists, policy, placement, tenant, worker) {
                return (32, worker, tenant);
            }
        }
    }
    (0, 0, 0)
}

/// Whether a tenant would choose a worker out of its own workers and that one.
fn would_choose(lists: &Lists, policy: &dyn Policy, placement: &Placement, tenant: u8, worker: u8) -> bool {
    let own = staff(lists, placement, tenant);
    policy.choose(tenant as usize, &own.with(worker)).has(worker)
}

// ------------------------------------------------------------------------------------------------
// Rotations
// ------------------------------------------------------------------------------------------------

/// A worker goes from one tenant to another.
#[derive(Clone, Copy, PartialEq, Eq, PartialOrd, Ord, Debug)]
pub struct Move {
    pub worker: u8,
    pub from: u8,
    pub to: u8,
}

/// The step of a placed worker: the first tenant after its own on its list that would choose it out of
/// the tenant's workers and this one. A worker with no tenant, or an unknown one, has no step.
pub fn step(lists: &Lists, policy: &dyn Policy, placement: &Placement, worker: u8) -> Option<u8> {
    if worker as usize >= lists.workers() || placement[worker as usize] == NONE {
        return None;
    }
    let list = &lists.lists[worker as usize];
    let own = list.iter().position(|&listed| listed == placement[worker as usize])?;
    for &tenant in &list[own + 1..] {
        if would_choose(lists, policy, placement, tenant, worker) {
            return Some(tenant);
        }
    }
    None
}

/// The successor of a worker: the one that its step puts out, if it puts out anybody.
pub fn successor(lists: &Lists, policy: &dyn Policy, placement: &Placement, worker: u8) -> Option<u8> {
    let tenant = step(lists, policy, placement, worker)?;
    let own = staff(lists, placement, tenant);
    let chosen = policy.choose(tenant as usize, &own.with(worker));
    let put_out = own.members_not_in(&chosen);
    assert!(put_out.len() <= 1, "a step puts out at most one worker");
    put_out.first().copied()
}

/// The rotation that a worker is on, if any: the cycle of workers, each the successor of the one before,
/// that comes back to this worker. Each of them goes from its tenant to its step. The moves are given by
/// rising worker number, so that rotations are the same when these lists are.
pub fn rotation_of(
    lists: &Lists,
    policy: &dyn Policy,
    placement: &Placement,
    worker: u8,
) -> Option<Vec<Move>> {
    let mut moves = Vec::new();
    let mut at = worker;
    loop {
        let after = successor(lists, policy, placement, at)?;
        moves.push(Move {
            worker: at,
            from: placement[at as usize],
            to: step(lists, policy, placement, at)?,
        });
        if after == worker {
            moves.sort();
            return Some(moves);
        }
        if moves.iter().any(|one| one.worker == after) {
            // The walk ran into a cycle further on; this worker is on the tail before it.
            return None;
        }
        at = after;
    }
}

/// Every rotation at a placement, by its lowest worker.
pub fn rotations(lists: &Lists, policy: &dyn Policy, placement: &Placement) -> Vec<Vec<Move>> {
    let mut found: Vec<Vec<Move>> = Vec::new();
    for worker in 0..lists.workers() as u8 {
        if found.iter().any(|moves| moves.iter().any(|one| one.worker == worker)) {
            continue;
        }
        if let Some(moves) = rotation_of(lists, policy, placement, worker) {
            found.push(moves);
        }
    }
    found
}

// ------------------------------------------------------------------------------------------------
// The board
// ------------------------------------------------------------------------------------------------

/// An event: its number, its kind (1 a drain is set, 2 a move is made, 3 a move is taken back, 4 a
/// worker is returned to its settled place), and the move.
#[derive(Clone, Copy, PartialEq, Eq, Debug)]
pub struct Event {
    pub number: u64,
    pub kind: u8,
    pub worker: u8,
    pub from: u8,
    pub to: u8,
}

/// What a caller hands in for the events of one call.
pub type Slip = [Event; 64];

/// A refusal with its number, or how many entries of the slip were filled.
#[derive(Clone, Copy, PartialEq, Eq, Debug)]
pub enum Answer {
    Refused(u8),
    Accepted(usize),
}

/// A ticket bears the number of a drain, or is blank. Tickets are told apart by the number alone.
pub type Ticket = Option<u64>;

pub struct Board {
    pub lists: Lists,
    pub policy: Box<dyn Policy>,
    /// Where settling put the workers, once and for all.
    pub settled: Placement,
    pub placement: Placement,
    /// The rotations that stand, in order of commit.
    pub standing: Vec<Vec<Move>>,
    /// None, or a number and a rotation.
    pub drain: Option<(u64, Vec<Move>)>,
    /// The number of the next event.
    pub next: u64,
}

impl Board {
    /// A settled board and the rounds of settling. It refuses nothing.
    pub fn make(lists: Lists, policy: Box<dyn Policy>, first: u64) -> (Board, usize) {
        let (settled, rounds) = settle(&lists, policy.as_ref());
        let board = Board {
            lists,
            policy,
            settled,
            placement: settled,
            standing: Vec::new(),
            drain: None,
            next: first,
        };
        (board, rounds)
    }

    /// Numbers are short for m events when m is above 2^64 - 1 less the next number.
    fn short_for(&self, events: usize) -> bool {
        let last = (1u128 << 64) - 1;
        events as u128 > last - self.next as u128
    }

    /// Gives the moves, which come by rising worker number, as events of one kind: entry 0 of the slip
    /// onwards is filled, each event takes the next number, and the other entries are left alone.
    fn give(&mut self, slip: &mut Slip, kind: u8, moves: &[Move]) -> usize {
        for (i, one) in moves.iter().enumerate() {
            slip[i] = Event { number: self.next, kind, worker: one.worker, from: one.from, to: one.to };
            self.next += 1;
        }
        moves.len()
    }

    fn make_moves(&mut self, moves: &[Move]) {
        for one in moves {
            assert_eq!(self.placement[one.worker as usize], one.from);
            self.placement[one.worker as usize] = one.to;
        }
    }

    /// Refused: 41 if a drain is set, 40 if the worker is on no rotation, 44 if numbers are short for
    /// one event and the rotation's. Otherwise the drain is set under the next number and one event
    /// given, with this worker's move. The ticket bears that number, and is blank on a refusal.
    pub fn open(&mut self, worker: u64, slip: &mut Slip) -> (Answer, Ticket) {
        if self.drain.is_some() {
            return (Answer::Refused(41), None);
        }
        if worker >= self.lists.workers() as u64 {
            return (Answer::Refused(40), None);
        }
        let found = rotation_of(&self.lists, self.policy.as_ref(), &self.placement, worker as u8);
        let moves = match found {
            None => return (Answer::Refused(40), None),
            Some(moves) => moves,
        };
        if self.short_for(1 + moves.len()) {
            return (Answer::Refused(44), None);
        }
        let number = self.next;
        let own = *moves.iter().find(|one| one.worker as u64 == worker).unwrap();
        self.drain = Some((number, moves));
        let filled = self.give(slip, 1, &[own]);
        (Answer::Accepted(filled), Some(number))
    }

    /// The refusals that commit and withdraw share: 42 if no drain is set, 43 if the ticket is blank or
    /// its number is not the drain's.
    fn ticket_refusal(&self, ticket: Ticket) -> Option<u8> {
        match &self.drain {
            None => Some(42),
            Some((number, _)) if ticket != Some(*number) => Some(43),
            Some(_) => None,
        }
    }

    /// Makes the drain's moves, an event each, and clears the drain; its rotation then stands.
    pub fn commit(&mut self, ticket: Ticket, slip: &mut Slip) -> Answer {
        if let Some(refusal) = self.ticket_refusal(ticket) {
            return Answer::Refused(refusal);
        }
        let (_, moves) = self.drain.take().unwrap();
        self.make_moves(&moves);
        let filled = self.give(slip, 2, &moves);
        self.standing.push(moves);
        assert!(self.standing.len() <= 480);
        Answer::Accepted(filled)
    }

    /// Clears the drain and takes no number.
    pub fn withdraw(&mut self, ticket: Ticket) -> Answer {
        if let Some(refusal) = self.ticket_refusal(ticket) {
            return Answer::Refused(refusal);
        }
        self.drain = None;
        Answer::Accepted(0)
    }

    /// Reverses the last rotation that stands. Refused: 41 if a drain is set, 45 if no rotation stands,
    /// 44 if numbers are short for its size.
    pub fn back(&mut self, slip: &mut Slip) -> Answer {
        if self.drain.is_some() {
            return Answer::Refused(41);
        }
        let size = match self.standing.last() {
            None => return Answer::Refused(45),
            Some(moves) => moves.len(),
        };
        if self.short_for(size) {
            return Answer::Refused(44);
        }
        let moves = self.standing.pop().unwrap();
        let reversed: Vec<Move> =
            moves.iter().map(|one| Move { worker: one.worker, from: one.to, to: one.from }).collect();
        self.make_moves(&reversed);
        Answer::Accepted(self.give(slip, 3, &reversed))
    }

    /// Clears any drain, removes every standing rotation and returns each worker whose tenant differs
    /// from the settled placement. Refused only with 44, if numbers are short for these workers.
    pub fn rewind(&mut self, slip: &mut Slip) -> Answer {
        let mut returns = Vec::new();
        for worker in 0..self.lists.workers() {
            if self.placement[worker] != self.settled[worker] {
                returns.push(Move {
                    worker: worker as u8,
                    from: self.placement[worker],
                    to: self.settled[worker],
                });
            }
        }
        if self.short_for(returns.len()) {
            return Answer::Refused(44);
        }
        self.drain = None;
        self.standing.clear();
        self.make_moves(&returns);
        Answer::Accepted(self.give(slip, 4, &returns))
    }
}

// ------------------------------------------------------------------------------------------------
// Faults and fields
// ------------------------------------------------------------------------------------------------

/// What is wrong with some bytes: a number, the place (offset from 0), the layer at which it was seen
/// (1 cutting into fields, 2 the contents of fields, 3 the laws of a Table), and two sets, which are 0
/// unless the fault is about two sets.
#[derive(Clone, Copy, PartialEq, Eq, Debug)]
pub struct Fault {
    pub number: u8,
    pub place: usize,
    pub layer: u8,
    pub sets: (usize, usize),
}

impl Fault {
    fn at(number: u8, place: usize) -> Fault {
        let layer = match number {
            10 => 1,
            11..=15 => 2,
            20..=23 => 3,
            _ => unreachable!(),
        };
        Fault { number, place, layer, sets: (0, 0) }
    }
}

impl fmt::Display for Fault {
    fn fmt(&self, out: &mut fmt::Formatter) -> fmt::Result {
        write!(
            out,
            "fault {} at {} layer {} sets {} {}",
            self.number, self.place, self.layer, self.sets.0, self.sets.1
        )
    }
}

/// A field: a tag byte, a length of two bytes, low byte first, and that many bytes of content. The place
/// is that of the tag byte.
#[derive(Clone, Copy, Debug)]
pub struct Field<'a> {
    pub tag: u8,
    pub place: usize,
    pub content: &'a [u8],
}

impl<'a> Field<'a> {
    /// The place just past the field.
    pub fn end(&self) -> usize {
        self.place + 3 + self.content.len()
    }
}

/// The field that begins at a place. Fault 10: fewer than three bytes are left, or the content is cut
/// off. At the very end of the bytes there are none left, which is this fault too.
pub fn field_at(bytes: &[u8], place: usize) -> Result<Field<'_>, Fault> {
    let rest = &bytes[place..];
    if rest.len() < 3 {
        return Err(Fault::at(10, place));
    }
    let length = rest[1] as usize + 256 * rest[2] as usize;
    if rest.len() < 3 + length {
        return Err(Fault::at(10, place));
    }
    Ok(Field { tag: rest[0], place, content: &rest[3..3 + length] })
}

// ------------------------------------------------------------------------------------------------
// Sheets
// ------------------------------------------------------------------------------------------------

#[derive(Clone, PartialEq, Eq, Debug)]
pub struct Worker {
    pub class: u8,
    pub list: Vec<u8>,
}

#[derive(Clone, PartialEq, Eq, Debug)]
pub enum Tenant {
    Ranked(RankedTenant),
    Seated(SeatedTenant),
    Table(TableTenant),
}

impl Tenant {
    /// The tag of the tenant's field. In a sheet these never fall from one tenant to the next.
    pub fn tag(&self) -> u8 {
        match self {
            Tenant::Ranked(_) => 3,
            Tenant::Seated(_) => 4,
            Tenant::Table(_) => 5,
        }
    }
}

#[derive(Clone, PartialEq, Eq, Debug)]
pub struct Sheet {
    pub workers: Vec<Worker>,
    pub tenants: Vec<Tenant>,
    pub quarantined: Vec<u8>,
}

/// The content lengths of a Table's field, for 0 to 8 workers: n workers and 2^n entries.
pub const TABLE_LENGTHS: [usize; 9] = [1, 3, 6, 11, 20, 37, 70, 135, 264];

/// Whether a content length can be right for a tag. It does not matter how many workers and tenants the
/// sheet says it has.
fn length_is_right(tag: u8, length: usize) -> bool {
    match tag {
        1 => length == 2,
        2 => (1..=17).contains(&length),
        3 => (1..=65).contains(&length),
        4 => (9..=73).contains(&length),
        5 => TABLE_LENGTHS.contains(&length),
        6 => length <= 64,
        _ => unreachable!(),
    }
}

/// The field at a place, if it has one of the tags due there and a right length.
/// Fault 10 as above, then 11 a tag that is not due here, then 12 a wrong length.
fn due_field(bytes: &[u8], place: usize, due: std::ops::RangeInclusive<u8>) -> Result<Field<'_>, Fault> {
    let field = field_at(bytes, place)?;
    if !due.contains(&field.tag) {
        return Err(Fault::at(11, place));
    }
    if !length_is_right(field.tag, field.content.len()) {
        return Err(Fault::at(12, place));
    }
    Ok(field)
}

/// Fault 13, at the first byte of the content that is outside its range. The test is given a byte's
/// position in the content and the byte.
fn all_in_range(field: &Field, in_range: impl Fn(usize, u8) -> bool) -> Result<(), Fault> {
    for (i, &byte) in field.content.iter().enumerate() {
        if !in_range(i, byte) {
            return Err(Fault::at(13, field.place + 3 + i));
        }
    }
    Ok(())
}

/// Fault 14, at the first byte of a part of the content that repeats an earlier one of that part.
fn all_different(field: &Field, part: std::ops::Range<usize>) -> Result<(), Fault> {
    for i in part.clone() {
        for earlier in part.start..i {
            if field.content[i] == field.content[earlier] {
                return Err(Fault::at(14, field.place + 3 + i));
            }
        }
    }
    Ok(())
}

/// What breaks a law in a Table's entries.
#[derive(Clone, Copy, PartialEq, Eq, Debug)]
pub enum Breach {
    /// The entry of this index is not within its index.
    Outside(usize),
    /// A fault number from 21 to 23, and the least Z and then the least Z' that break the law.
    Law(u8, usize, usize),
}

/// The first breach: 20 over all entries, then 21 (substitutable) over all sets, then 22 (monotone),
/// then 23 (consistent). The last can not happen once the others hold, and is looked for all the same.
pub fn breach(entries: &[u8]) -> Option<Breach> {
    let chosen = |set: usize| entries[set] as usize;
    let within = |small: usize, large: usize| small & !large == 0;
    let size = |set: usize| set.count_ones();

    for set in 0..entries.len() {
        if !within(chosen(set), set) {
            return Some(Breach::Outside(set));
        }
    }
    let first_pair = |breaks: &dyn Fn(usize, usize) -> bool| {
        for z in 0..entries.len() {
            for part in 0..entries.len() {
                if within(part, z) && breaks(z, part) {
                    return Some((z, part));
                }
            }
        }
        None
    };
    if let Some((z, part)) = first_pair(&|z, part| !within(chosen(z) & part, chosen(part))) {
        return Some(Breach::Law(21, z, part));
    }
    if let Some((z, part)) = first_pair(&|z, part| size(chosen(z)) < size(chosen(part))) {
        return Some(Breach::Law(22, z, part));
    }
    if let Some((z, part)) = first_pair(&|z, part| within(chosen(z), part) && chosen(part) != chosen(z)) {
        return Some(Breach::Law(23, z, part));
    }
    None
}

impl Sheet {
    /// The blank sheet: one worker of class 0, one Ranked tenant of cap 0, and all lists empty.
    pub fn blank() -> Sheet {
        Sheet {
            workers: vec![Worker { class: 0, list: vec![] }],
            tenants: vec![Tenant::Ranked(RankedTenant { cap: 0, list: vec![] })],
            quarantined: vec![],
        }
    }

    /// Reads a sheet. In order: a field of tag 1 (how many workers, how many tenants); for each worker a
    /// field of tag 2 (class, then list); for each tenant a field of tag 3 (cap, list), 4 (overall cap,
    /// eight class caps, list) or 5 (workers, then entries), the tags never falling; and a field of
    /// tag 6 (quarantined workers). Nothing may follow.
    ///
    /// The fields are looked at in turn, and the next only if this one is right. Within a field the
    /// lowest fault number comes first, each looked for in the whole field before the next number.
    pub fn read(bytes: &[u8]) -> Result<Sheet, Fault> {
        // Tag 1: 1 to 64 workers, 1 to 16 tenants.
        let field = due_field(bytes, 0, 1..=1)?;
        all_in_range(&field, |i, byte| match i {
            0 => (1..=64).contains(&byte),
            _ => (1..=16).contains(&byte),
        })?;
        let worker_count = field.content[0];
        let tenant_count = field.content[1];
        let mut place = field.end();

        // Tag 2: a class from 0 to 7 and different tenants.
        let mut workers = Vec::new();
        for _ in 0..worker_count {
            let field = due_field(bytes, place, 2..=2)?;
            all_in_range(&field, |i, byte| match i {
                0 => byte <= 7,
                _ => byte < tenant_count,
            })?;
            all_different(&field, 1..field.content.len())?;
            workers.push(Worker { class: field.content[0], list: field.content[1..].to_vec() });
            place = field.end();
        }

        // Tags 3, 4 and 5, never falling.
        let mut tenants = Vec::new();
        let mut lowest_tag = 3;
        for _ in 0..tenant_count {
            let field = due_field(bytes, place, lowest_tag..=5)?;
            tenants.push(read_tenant(&field, worker_count)?);
            lowest_tag = field.tag;
            place = field.end();
        }

        // Tag 6: different workers.
        let field = due_field(bytes, place, 6..=6)?;
        all_in_range(&field, |_, byte| byte < worker_count)?;
        all_different(&field, 0..field.content.len())?;
        let quarantined = field.content.to_vec();
        place = field.end();

        // Fault 15: bytes after the last field.
        if place < bytes.len() {
            return Err(Fault::at(15, place));
        }
        Ok(Sheet { workers, tenants, quarantined })
    }

    /// The bytes of the sheet.
    pub fn encoding(&self) -> Vec<u8> {
        let mut bytes = Vec::new();
        let mut put = |tag: u8, content: Vec<u8>| {
            bytes.push(tag);
            bytes.push((content.len() % 256) as u8);
            bytes.push((content.len() / 256) as u8);
            bytes.extend(content);
        };
        put(1, vec![self.workers.len() as u8, self.tenants.len() as u8]);
        for worker in &self.workers {
            put(2, [vec![worker.class], worker.list.clone()].concat());
        }
        for tenant in &self.tenants {
            let content = match tenant {
                Tenant::Ranked(rule) => [vec![rule.cap], rule.list.clone()].concat(),
                Tenant::Seated(rule) => {
                    [vec![rule.cap], rule.class_caps.to_vec(), rule.list.clone()].concat()
                }
                Tenant::Table(rule) => [rule.workers.clone(), rule.entries.clone()].concat(),
            };
            put(tenant.tag(), content);
        }
        put(6, self.quarantined.clone());
        bytes
    }

    /// Writes the sheet to the front of a buffer and answers its length. If the buffer is shorter it is
    /// refused with 50 and nothing is written. Bytes past the sheet stay.
    pub fn write(&self, buffer: &mut [u8]) -> Result<usize, u8> {
        let bytes = self.encoding();
        if buffer.len() < bytes.len() {
            return Err(50);
        }
        buffer[..bytes.len()].copy_from_slice(&bytes);
        Ok(bytes.len())
    }

    pub fn lists(&self) -> Lists {
        Lists {
            tenants: self.tenants.len(),
            lists: self.workers.iter().map(|worker| worker.list.clone()).collect(),
        }
    }

    /// The policy of the sheet: Quarantine over the three kinds, joined in tag order by Pair.
    pub fn policy(&self) -> Box<dyn Policy> {
        let mut ranked = Ranked { tenants: Vec::new() };
        let mut seated = Seated { classes: [0; MOST_WORKERS], tenants: Vec::new() };
        let mut table = Table { tenants: Vec::new() };
        for (number, worker) in self.workers.iter().enumerate() {
            seated.classes[number] = worker.class;
        }
        for tenant in &self.tenants {
            match tenant {
                Tenant::Ranked(rule) => ranked.tenants.push(rule.clone()),
                Tenant::Seated(rule) => seated.tenants.push(rule.clone()),
                Tenant::Table(rule) => table.tenants.push(rule.clone()),
            }
        }
        let mut removed = Set::empty();
        for &worker in &self.quarantined {
            removed.insert(worker);
        }
        let first_two = Pair { first: Box::new(ranked), second: Box::new(seated) };
        let all_three = Pair { first: Box::new(first_two), second: Box::new(table) };
        Box::new(Quarantine { removed, below: Box::new(all_three) })
    }
}

/// The content of a tenant's field, whose tag and length are known to be right. Caps are 0 to 64 however
/// many workers there are. A Table's entries are bytes of any value for fault 13; one that has a bit
/// outside its index is fault 20.
fn read_tenant(field: &Field, worker_count: u8) -> Result<Tenant, Fault> {
    let content = field.content;
    match field.tag {
        3 => {
            all_in_range(field, |i, byte| match i {
                0 => byte <= 64,
                _ => byte < worker_count,
            })?;
            all_different(field, 1..content.len())?;
            Ok(Tenant::Ranked(RankedTenant { cap: content[0], list: content[1..].to_vec() }))
        }
        4 => {
            all_in_range(field, |i, byte| match i {
                0..=8 => byte <= 64,
                _ => byte < worker_count,
            })?;
            all_different(field, 9..content.len())?;
            let mut class_caps = [0; 8];
            class_caps.copy_from_slice(&content[1..9]);
            Ok(Tenant::Seated(SeatedTenant { cap: content[0], class_caps, list: content[9..].to_vec() }))
        }
        5 => {
            let n = TABLE_LENGTHS.iter().position(|&length| length == content.len()).unwrap();
            all_in_range(field, |i, byte| i >= n || byte < worker_count)?;
            all_different(field, 0..n)?;
            let (names, entries) = content.split_at(n);
            match breach(entries) {
                None => {}
                Some(Breach::Outside(index)) => return Err(Fault::at(20, field.place + 3 + n + index)),
                Some(Breach::Law(number, z, part)) => {
                    return Err(Fault { sets: (z, part), ..Fault::at(number, field.place) })
                }
            }
            Ok(Tenant::Table(TableTenant { workers: names.to_vec(), entries: entries.to_vec() }))
        }
        _ => unreachable!(),
    }
}

// ------------------------------------------------------------------------------------------------
// Journals
// ------------------------------------------------------------------------------------------------

/// The bytes of an event: tag 7, length 12, the number (8 bytes, low byte first), kind, worker, from, to.
pub fn event_bytes(event: &Event) -> Vec<u8> {
    let mut bytes = vec![7, 12, 0];
    bytes.extend(event.number.to_le_bytes());
    bytes.extend([event.kind, event.worker, event.from, event.to]);
    bytes
}

/// Kind 1 to 4, worker below 64, from and to below 16; these ranges are the same for every journal.
/// Answers the first of the four, counted from 0, that is outside.
fn outside_event_range(kind: u8, worker: u8, from: u8, to: u8) -> Option<usize> {
    [(1..=4).contains(&kind), worker < 64, from < 16, to < 16].iter().position(|&in_range| !in_range)
}

/// Adds an event after the others, in a journal that has room for so many bytes. Refused with nothing
/// written: 13 for an event outside the ranges, then 50 for fewer than 15 bytes free.
pub fn journal_add(journal: &mut Vec<u8>, room: usize, event: &Event) -> Result<(), u8> {
    if outside_event_range(event.kind, event.worker, event.from, event.to).is_some() {
        return Err(13);
    }
    if room - journal.len() < 15 {
        return Err(50);
    }
    journal.extend(event_bytes(event));
    Ok(())
}

/// Walks over a journal. Asked again at the end, or at a fault, it answers the same.
pub struct Reader<'a> {
    pub bytes: &'a [u8],
    pub place: usize,
}

#[derive(Clone, Copy, PartialEq, Eq, Debug)]
pub enum Found {
    Event(Event),
    End,
    Fault(Fault),
}

impl<'a> Reader<'a> {
    pub fn over(bytes: &'a [u8]) -> Reader<'a> {
        Reader { bytes, place: 0 }
    }

    pub fn next(&mut self) -> Found {
        if self.place == self.bytes.len() {
            return Found::End;
        }
        match event_at(self.bytes, self.place) {
            Err(fault) => Found::Fault(fault),
            Ok(event) => {
                self.place += 15;
                Found::Event(event)
            }
        }
    }
}

/// The event at a place: 10 not a whole field, 11 a tag other than 7, 12 a length other than 12, 13 a
/// number outside its range.
fn event_at(bytes: &[u8], place: usize) -> Result<Event, Fault> {
    let field = field_at(bytes, place)?;
    if field.tag != 7 {
        return Err(Fault::at(11, place));
    }
    if field.content.len() != 12 {
        return Err(Fault::at(12, place));
    }
    let mut number = [0; 8];
    number.copy_from_slice(&field.content[..8]);
    let (kind, worker, from, to) = (field.content[8], field.content[9], field.content[10], field.content[11]);
    if let Some(i) = outside_event_range(kind, worker, from, to) {
        return Err(Fault::at(13, place + 3 + 8 + i));
    }
    Ok(Event { number: u64::from_le_bytes(number), kind, worker, from, to })
}
