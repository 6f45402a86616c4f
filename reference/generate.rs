//! Generators of inputs: sheets, damaged sheets, placements, scripts of calls, journals. Everything
//! random follows from a seed, so the same arguments always give the same lines.

use crate::model::*;
use crate::to_hex;
use crate::NO_EVENT;
use std::io::{self, Write};
use std::sync::OnceLock;

// ------------------------------------------------------------------------------------------------
// Chance
// ------------------------------------------------------------------------------------------------

/// A stream of numbers that look random: a counter with a large odd step, and its bits mixed.
pub struct Chance {
    counter: u64,
}

impl Chance {
    pub fn from_seed(seed: u64) -> Chance {
        Chance { counter: seed.wrapping_mul(0x2545_f491_4f6c_dd1d) }
    }

    pub fn number(&mut self) -> u64 {
        self.counter = self.counter.wrapping_add(0x9e37_79b9_7f4a_7c15);
        let mut bits = self.counter;
        bits = (bits ^ (bits >> 30)).wrapping_mul(0xbf58_476d_1ce4_e5b9);
        bits = (bits ^ (bits >> 27)).wrapping_mul(0x94d0_49bb_1331_11eb);
        bits ^ (bits >> 31)
    }

    /// A number below a limit, which is at least 1.
    pub fn below(&mut self, limit: usize) -> usize {
        (self.number() % limit as u64) as usize
    }

    /// A number from low to high, both possible.
    pub fn between(&mut self, low: usize, high: usize) -> usize {
        low + self.below(high - low + 1)
    }

    /// True so many times in a hundred.
    pub fn percent(&mut self, hundredths: usize) -> bool {
        self.below(100) < hundredths
    }

    pub fn pick<T: Copy>(&mut self, items: &[T]) -> T {
        items[self.below(items.len())]
    }

    pub fn shuffle<T>(&mut self, items: &mut [T]) {
        for i in (1..items.len()).rev() {
            items.swap(i, self.below(i + 1));
        }
    }

    /// The numbers below a limit in some order.
    pub fn order(&mut self, limit: usize) -> Vec<u8> {
        let mut numbers: Vec<u8> = (0..limit as u8).collect();
        self.shuffle(&mut numbers);
        numbers
    }
}

// ------------------------------------------------------------------------------------------------
// Lawful tables
// ------------------------------------------------------------------------------------------------

/// The entries of a rule over n workers.
fn entries_of(n: usize, rule: impl Fn(usize) -> usize) -> Vec<u8> {
    (0..1usize << n).map(|set| rule(set) as u8).collect()
}

/// Greedy choice: goes through the workers by the order and takes one of the set if it may be taken
/// beside those taken already.
fn greedy(set: usize, order: &[u8], may_take: impl Fn(usize, usize) -> bool) -> usize {
    let mut taken = 0;
    for &i in order {
        if (set >> i) & 1 == 1 && may_take(taken, i as usize) {
            taken |= 1 << i;
        }
    }
    taken
}

/// Entries of n workers, found by going through the sets from small to large and choosing at random what
/// the laws still allow; with nothing left to choose it gives up. A worker may be chosen out of a set if
/// it is chosen out of each set that has one worker fewer. Without `monotone`, only the first two laws
/// hold in the result.
fn wandering_entries(chance: &mut Chance, n: usize, monotone: bool) -> Option<Vec<u8>> {
    let generous = chance.below(100);
    let mut entries = vec![0u8; 1 << n];
    for set in 1..1usize << n {
        let mut allowed = set;
        let mut least = 0;
        for i in (0..n).filter(|i| (set >> i) & 1 == 1) {
            let smaller = entries[set & !(1 << i)] as usize;
            allowed &= smaller | (1 << i);
            least = least.max(smaller.count_ones() as usize);
        }
        let most = allowed.count_ones() as usize;
        if !monotone {
            least = 0;
        }
        if most < least {
            return None;
        }
        let size = if chance.percent(generous) { most } else { chance.between(least, most.min(least + 1)) };
        let mut members: Vec<usize> = (0..n).filter(|i| (allowed >> i) & 1 == 1).collect();
        chance.shuffle(&mut members);
        entries[set] = members[..size].iter().map(|i| 1u8 << i).sum();
    }
    Some(entries)
}

/// Random entries for n workers that keep all four laws. The order says which workers the tenant likes
/// better, for the kinds that care.
fn lawful_entries(chance: &mut Chance, n: usize, order: &[u8]) -> Vec<u8> {
    let order = order.to_vec();
    let entries = match chance.below(7) {
        0 => {
            // The first so many of the order, of which the tail may be missing.
            let cap = chance.between(0, n);
            let listed = if chance.percent(30) { chance.between(0, n) } else { n };
            entries_of(n, |set| greedy(set, &order[..listed], |taken, _| (taken.count_ones() as usize) < cap))
        }
        1 | 2 => {
            // Caps by class and overall.
            let classes = chance.between(1, 4);
            let class_of: Vec<usize> = (0..n).map(|_| chance.below(classes)).collect();
            let caps: Vec<usize> = (0..classes).map(|_| chance.pick(&[0, 1, 1, 1, 2, 2, 3])).collect();
            let cap = chance.between(1, n.max(1));
            entries_of(n, |set| {
                greedy(set, &order, |taken, i| {
                    let same =
                        (0..n).filter(|&j| (taken >> j) & 1 == 1 && class_of[j] == class_of[i]).count();
                    (taken.count_ones() as usize) < cap && same < caps[class_of[i]]
                })
            })
        }
        3 => {
            // Workers are links between knots; a link is taken unless its ends are joined already.
            let knots = chance.between(2, 5);
            let ends: Vec<(usize, usize)> =
                (0..n).map(|_| (chance.below(knots), chance.below(knots))).collect();
            entries_of(n, |set| {
                greedy(set, &order, |taken, i| {
                    let mut group: Vec<usize> = (0..knots).collect();
                    for j in (0..n).filter(|&j| (taken >> j) & 1 == 1) {
                        let (keep, lose) = (group[ends[j].0], group[ends[j].1]);
                        group.iter_mut().for_each(|g| {
                            if *g == lose {
                                *g = keep
                            }
                        });
                    }
                    group[ends[i].0] != group[ends[i].1]
                })
            })
        }
        4 => {
            // Caps on groups within groups.
            let cap = [chance.between(1, 2), chance.between(1, 3), chance.between(1, 4)];
            entries_of(n, |set| {
                greedy(set, &order, |taken, i| {
                    let beside = |size: usize| {
                        (0..n).filter(|&j| (taken >> j) & 1 == 1 && j / size == i / size).count()
                    };
                    beside(2) < cap[0] && beside(4) < cap[1] && beside(8) < cap[2]
                })
            })
        }
        _ => {
            let mut found = None;
            for _ in 0..40 {
                found = wandering_entries(chance, n, true);
                if found.is_some() {
                    break;
                }
            }
            found.unwrap_or_else(|| {
                entries_of(n, |set| greedy(set, &order, |taken, _| taken.count_ones() < 2))
            })
        }
    };
    assert_eq!(breach(&entries), None, "every table made here is lawful");
    entries
}

// ------------------------------------------------------------------------------------------------
// Random sheets
// ------------------------------------------------------------------------------------------------

/// A random sheet of so many workers and tenants, in one of several styles.
fn random_sheet(chance: &mut Chance, workers: usize, tenants: usize) -> Sheet {
    let classes = chance.between(1, 8);
    let kind_style = chance.below(6);
    // Half of the sheets are tight: complete lists, tenants that like best those who like them least, and
    // about as much room as workers. These have rotations more often.
    let tight = chance.percent(50);
    let list_style = if tight { chance.pick(&[0, 0, 2, 9]) } else { chance.below(10) };
    let tenant_style = if tight { chance.pick(&[0, 0, 1]) } else { chance.below(4) };
    let cap_style = if tight { chance.pick(&[0, 1, 1, 1, 2]) } else { chance.below(6) };

    // Workers. Lists are complete, short or of any length; they are random, or near one common order,
    // or go round from a start of each worker's own.
    let common = chance.order(tenants);
    let mut made_workers = Vec::new();
    for worker in 0..workers {
        let mut list = match list_style {
            0..=4 => chance.order(tenants),
            5 | 6 => {
                let mut list = common.clone();
                for _ in 0..chance.below(4) {
                    let (i, j) = (chance.below(tenants), chance.below(tenants));
                    list.swap(i, j);
                }
                list
            }
            _ => (0..tenants).map(|k| common[(worker + k) % tenants]).collect(),
        };
        if list_style % 3 == 1 || chance.percent(5) {
            list.truncate(chance.between(0, tenants));
        } else if list_style % 5 == 3 {
            list.truncate(chance.between(0, 4));
        }
        made_workers.push(Worker { class: chance.below(classes) as u8, list });
    }

    // Tenants. They like best the workers that like them least, or have a random order, or one near an
    // order common to all.
    let common = chance.order(workers);
    let mut made_tenants = Vec::new();
    for tenant in 0..tenants as u8 {
        let place_in_list = |worker: u8| {
            let list = &made_workers[worker as usize].list;
            list.iter().position(|&listed| listed == tenant)
        };
        let mut order = chance.order(workers);
        match tenant_style {
            0 | 1 => {
                order.sort_by_key(|&worker| std::cmp::Reverse(place_in_list(worker).map_or(0, |i| i + 1)))
            }
            2 => {
                order = common.clone();
                for _ in 0..chance.below(6) {
                    let (i, j) = (chance.below(workers), chance.below(workers));
                    order.swap(i, j);
                }
            }
            _ => {}
        }
        if tenant_style == 1 {
            for _ in 0..chance.below(workers) {
                let i = chance.below(workers);
                order.swap(i, (i + 1) % workers);
            }
        }
        let fair = (workers + tenants - 1) / tenants;
        let cap = match cap_style {
            0 => 1,
            1 => fair,
            2 => chance.between(1, fair + 1),
            3 => chance.between(0, 3),
            4 => chance.pick(&[0, 1, 1, 2, 64, workers]),
            _ => chance.between(0, 64),
        } as u8;
        let kind = match kind_style {
            0 => 3,
            1 => 4,
            2 => 5,
            _ => chance.between(3, 5),
        };
        made_tenants.push(match kind {
            3 => {
                if chance.percent(15) {
                    order.truncate(chance.between(0, workers));
                }
                Tenant::Ranked(RankedTenant { cap, list: order })
            }
            4 => {
                if chance.percent(15) {
                    order.truncate(chance.between(0, workers));
                }
                let mut class_caps = [0; 8];
                for class_cap in class_caps.iter_mut() {
                    *class_cap = match chance.below(8) {
                        0 => 0,
                        1..=3 => 1,
                        4 => 2,
                        5 => chance.between(0, 64),
                        _ => chance.between(1, fair),
                    } as u8;
                }
                let overall = match chance.below(5) {
                    0 | 1 if !tight => chance.between(1, 8) as u8,
                    0 => fair as u8 + 1,
                    _ => cap.max(2),
                };
                Tenant::Seated(SeatedTenant { cap: overall, class_caps, list: order })
            }
            _ => {
                let most = workers.min(8);
                let n = if chance.percent(70) { most } else { chance.between(0, most) };
                let mut names: Vec<u8> = order.clone();
                if tenant_style != 2 {
                    names.retain(|&worker| place_in_list(worker).is_some());
                    names.extend(order.iter().filter(|&&worker| place_in_list(worker).is_none()));
                }
                // Some from the front and some from the back, so that not only late comers are named.
                let mut picked: Vec<u8> = Vec::new();
                while picked.len() < n {
                    let at = if chance.percent(50) { 0 } else { chance.below(names.len()) };
                    picked.push(names.remove(at));
                }
                let mut liked: Vec<u8> = (0..n as u8).collect();
                liked.sort_by_key(|&i| order.iter().position(|&worker| worker == picked[i as usize]));
                let entries = lawful_entries(chance, n, &liked);
                Tenant::Table(TableTenant { workers: picked, entries })
            }
        });
    }

    let mut quarantined = Vec::new();
    if chance.percent(25) {
        quarantined = chance.order(workers);
        let most = if chance.percent(80) { (workers + 3) / 4 } else { workers };
        quarantined.truncate(chance.between(0, most));
    }
    let sheet = Sheet { workers: made_workers, tenants: made_tenants, quarantined };
    in_tag_order(sheet)
}

/// Renumbers the tenants so that their tags never fall; tenants of one tag keep their order.
fn in_tag_order(sheet: Sheet) -> Sheet {
    let mut order: Vec<usize> = (0..sheet.tenants.len()).collect();
    order.sort_by_key(|&tenant| sheet.tenants[tenant].tag());
    with_tenants_in_order(sheet, &order)
}

/// The tenant at each place of the order gets that place as its number.
fn with_tenants_in_order(mut sheet: Sheet, order: &[usize]) -> Sheet {
    sheet.tenants = order.iter().map(|&tenant| sheet.tenants[tenant].clone()).collect();
    for worker in sheet.workers.iter_mut() {
        for listed in worker.list.iter_mut() {
            *listed = order.iter().position(|&tenant| tenant == *listed as usize).unwrap() as u8;
        }
    }
    sheet
}

/// The same sheet with workers, and tenants of one tag, under other numbers.
fn renumbered(chance: &mut Chance, mut sheet: Sheet) -> Sheet {
    let new: Vec<u8> = chance.order(sheet.workers.len());
    let rename = |list: &mut Vec<u8>| list.iter_mut().for_each(|worker| *worker = new[*worker as usize]);
    let old = sheet.workers.clone();
    for (worker, one) in old.into_iter().enumerate() {
        sheet.workers[new[worker] as usize] = one;
    }
    for tenant in sheet.tenants.iter_mut() {
        match tenant {
            Tenant::Ranked(rule) => rename(&mut rule.list),
            Tenant::Seated(rule) => rename(&mut rule.list),
            Tenant::Table(rule) => rename(&mut rule.workers),
        }
    }
    rename(&mut sheet.quarantined);
    let mut order: Vec<usize> = (0..sheet.tenants.len()).collect();
    chance.shuffle(&mut order);
    in_tag_order(with_tenants_in_order(sheet, &order))
}

/// A sheet with groups of workers that go down their lists in step, by exchanges of two or round a ring;
/// tenants like a worker better the further down its list they are. These have many rotations.
fn stepping_sheet(chance: &mut Chance) -> Sheet {
    let by_exchange = chance.percent(50);
    let tenants = if by_exchange { chance.pick(&[2, 4, 8, 16]) } else { chance.between(2, 16) };
    let groups = chance.between(1, (MOST_WORKERS / tenants).min(8));
    let depth = chance.between(2, tenants);
    let stages: Vec<usize> = chance.order(tenants).into_iter().map(|stage| stage as usize).collect();
    // The tenant of a group's i-th worker at a stage; the same formula gives the worker of a tenant.
    let at = |i: usize, stage: usize| {
        if by_exchange {
            i ^ stages[stage]
        } else {
            (stages[stage] + 2 * tenants - i) % tenants
        }
    };
    let mut workers = Vec::new();
    for group in 0..groups {
        for i in 0..tenants {
            let list = (0..depth).map(|stage| at(i, stage) as u8).collect();
            workers.push(Worker { class: group as u8, list });
        }
    }
    let one_after_another = chance.percent(50);
    let made = (0..tenants)
        .map(|tenant| {
            let worker = |group: usize, stage: usize| (group * tenants + at(tenant, stage)) as u8;
            if one_after_another {
                Tenant::Ranked(RankedTenant {
                    cap: groups as u8,
                    list: order_one_group_after_another(groups, depth, worker),
                })
            } else {
                let mut list = Vec::new();
                for stage in (0..depth).rev() {
                    list.extend((0..groups).map(|group| worker(group, stage)));
                }
                Tenant::Seated(SeatedTenant { cap: groups as u8, class_caps: [1; 8], list })
            }
        })
        .collect();
    let sheet = Sheet { workers, tenants: made, quarantined: vec![] };
    renumbered(chance, sheet)
}

/// A list, best first, by which the first group goes down to the end before the second begins, and so
/// on: first each group's last worker, then the others, the last group's latest first.
fn order_one_group_after_another(
    groups: usize,
    depth: usize,
    worker: impl Fn(usize, usize) -> u8,
) -> Vec<u8> {
    let mut list: Vec<u8> = (0..groups).map(|group| worker(group, depth - 1)).collect();
    for group in (0..groups).rev() {
        list.extend((0..depth - 1).rev().map(|stage| worker(group, stage)));
    }
    list
}

/// A random sheet of a random size and style.
fn any_sheet(chance: &mut Chance) -> Sheet {
    let (workers, tenants) = match chance.below(20) {
        0..=3 => (chance.between(1, 4), chance.between(1, 3)),
        4..=9 => (chance.between(2, 8), chance.between(1, 6)),
        10..=12 => (chance.between(8, 24), chance.between(3, 10)),
        13 => (chance.between(24, 64), chance.between(8, 16)),
        14 => (chance.between(60, 64), chance.between(14, 16)),
        15 => (64, 16),
        16 => {
            let side = chance.between(2, 16);
            (side, side)
        }
        17 | 18 => return stepping_sheet(chance),
        _ => {
            let specials = special_sheets();
            let sheet = specials[chance.below(specials.len())].1.clone();
            return if chance.percent(80) { renumbered(chance, sheet) } else { sheet };
        }
    };
    // Most random sheets have no rotation at all; often a few are tried until one has.
    let mut sheet = random_sheet(chance, workers, tenants);
    if chance.percent(60) {
        for _ in 0..12 {
            if has_rotation(&sheet) {
                break;
            }
            sheet = random_sheet(chance, workers, tenants);
        }
    }
    sheet
}

fn has_rotation(sheet: &Sheet) -> bool {
    let (lists, policy) = (sheet.lists(), sheet.policy());
    let (placement, _) = settle(&lists, policy.as_ref());
    (0..lists.workers() as u8)
        .any(|worker| rotation_of(&lists, policy.as_ref(), &placement, worker).is_some())
}

// ------------------------------------------------------------------------------------------------
// Special sheets
// ------------------------------------------------------------------------------------------------

fn worker(class: u8, list: &[u8]) -> Worker {
    Worker { class, list: list.to_vec() }
}

fn ranked(cap: u8, list: &[u8]) -> Tenant {
    Tenant::Ranked(RankedTenant { cap, list: list.to_vec() })
}

fn seated(cap: u8, class_caps: [u8; 8], list: &[u8]) -> Tenant {
    Tenant::Seated(SeatedTenant { cap, class_caps, list: list.to_vec() })
}

fn table(workers: &[u8], entries: &[u8]) -> Tenant {
    Tenant::Table(TableTenant { workers: workers.to_vec(), entries: entries.to_vec() })
}

fn sheet(workers: Vec<Worker>, tenants: Vec<Tenant>) -> Sheet {
    Sheet { workers, tenants, quarantined: vec![] }
}

/// Two workers exchange their tenants; a third is chosen by nobody.
fn ring() -> Sheet {
    sheet(
        vec![worker(0, &[0, 1]), worker(0, &[1, 0]), worker(0, &[0])],
        vec![ranked(1, &[1, 0, 2]), ranked(1, &[0, 1])],
    )
}

/// A step that puts nobody out, and must not be looked past.
fn spare() -> Sheet {
    sheet(
        vec![worker(0, &[0, 1, 2]), worker(0, &[2, 0])],
        vec![ranked(1, &[1, 0]), ranked(1, &[0]), ranked(1, &[0, 1])],
    )
}

/// Two workers have the same successor, so one of them is on a tail.
fn shared() -> Sheet {
    sheet(
        vec![worker(0, &[0, 1]), worker(0, &[0, 2]), worker(0, &[1, 0]), worker(0, &[2, 0])],
        vec![ranked(2, &[2, 3, 0, 1]), ranked(1, &[0, 2]), ranked(1, &[1, 3])],
    )
}

/// A rotation that passes one tenant twice, putting out a different worker each time.
fn twice() -> Sheet {
    in_tag_order(sheet(
        vec![worker(1, &[2, 1]), worker(2, &[2, 0]), worker(1, &[0, 2]), worker(2, &[1, 2])],
        vec![ranked(1, &[1, 2]), ranked(1, &[0, 3]), seated(2, [0, 1, 1, 0, 0, 0, 0, 0], &[2, 3, 0, 1])],
    ))
}

/// 64 workers, 16 tenants, and 962 rounds of settling, one pair closed in each but the last. More is not
/// possible at this size: a tenant never has fewer workers later, so those unplaced in the end are at
/// most those put out in the first round, and all the others keep a pair.
///
/// The tenants stand in a ring and each worker's list goes round from where it starts. Tenant 0 has one
/// worker too many. Whoever is put out goes on to the next tenant, which then has one too many, and
/// puts out the one that has seen the fewest tenants; a tenant likes the later put out better.
fn longest_settling() -> Sheet {
    let mut here: Vec<Vec<usize>> =
        (0..16).map(|tenant| (0..64).filter(|w| w % 16 == tenant).collect()).collect();
    let mut seen = vec![1; 64];
    let mut put_out: Vec<Vec<u8>> = vec![Vec::new(); 16];
    let mut tenant = 0;
    loop {
        let who = *here[tenant].iter().min_by_key(|&&worker| seen[worker]).unwrap();
        here[tenant].retain(|&worker| worker != who);
        put_out[tenant].push(who as u8);
        if seen[who] == 16 {
            break;
        }
        seen[who] += 1;
        tenant = (tenant + 1) % 16;
        here[tenant].push(who);
    }
    let workers =
        (0..64u8).map(|w| Worker { class: 0, list: (0..16).map(|k| (w + k) % 16).collect() }).collect();
    let tenants = (0..16)
        .map(|tenant| {
            let mut list: Vec<u8> = here[tenant].iter().map(|&worker| worker as u8).collect();
            list.extend(put_out[tenant].iter().rev());
            ranked(if tenant == 0 { 3 } else { 4 }, &list)
        })
        .collect();
    sheet(workers, tenants)
}

/// 480 rotations of two workers each. Four groups of sixteen; at stage k the i-th worker of a group is
/// with tenant i xor k, so from one stage to the next the workers of a group exchange tenants in twos.
/// Tenants like later stages better. Either they have a seat for each group (as a class), so that the
/// groups go independently, or they are Ranked and the groups go one after another.
fn most_rotations(with_seats: bool) -> Sheet {
    let mut workers = Vec::new();
    for group in 0..4 {
        for i in 0..16 {
            workers.push(Worker { class: group, list: (0..16).map(|stage| i ^ stage).collect() });
        }
    }
    let tenants = (0..16)
        .map(|tenant: usize| {
            let worker = |group: usize, stage: usize| (16 * group + (tenant ^ stage)) as u8;
            if with_seats {
                let mut list = Vec::new();
                for stage in (0..16).rev() {
                    list.extend((0..4).map(|group| worker(group, stage)));
                }
                seated(4, [1; 8], &list)
            } else {
                ranked(4, &order_one_group_after_another(4, 16, worker))
            }
        })
        .collect();
    sheet(workers, tenants)
}

/// One rotation of all 64 workers. Worker w is with tenant w mod 16, its successor is w + 1. Each Table
/// has four workers there and four to come, each of these for one of those.
fn one_long_rotation_of_tables() -> Sheet {
    let workers = (0..64u8).map(|w| Worker { class: 0, list: vec![w % 16, (w + 1) % 16] }).collect();
    let tenants = (0..16u8)
        .map(|tenant| {
            let there: Vec<u8> = (0..4).map(|k| tenant + 16 * k).collect();
            let coming: Vec<u8> = there.iter().map(|&worker| (worker + 63) % 64).collect();
            let entries = entries_of(8, |set| {
                let replaced = set >> 4;
                set & !replaced
            });
            table(&[there, coming].concat(), &entries)
        })
        .collect();
    sheet(workers, tenants)
}

/// One rotation of all 64 workers, of Seated tenants in a row, at which eight classes pass side by side,
/// and eight Ranked tenants at its end, at each of which one class is followed by the next.
fn one_long_rotation_of_seats() -> Sheet {
    let row = |place: u8| 8 + place;
    let mut workers = Vec::new();
    for place in 0..7 {
        for class in 0..8 {
            let next = if place < 6 { row(place + 1) } else { class };
            workers.push(worker(class, &[row(place), next]));
        }
    }
    for class in 0..8 {
        workers.push(worker((class + 1) % 8, &[class, row(0)]));
    }
    let mut tenants: Vec<Tenant> = (0..8).map(|class| ranked(1, &[48 + class, 56 + class])).collect();
    for place in 0..7u8 {
        let coming = if place == 0 { 56 } else { 8 * (place - 1) };
        let list: Vec<u8> = (0..8).map(|k| coming + k).chain((0..8).map(|k| 8 * place + k)).collect();
        tenants.push(seated(8, [1; 8], &list));
    }
    sheet(workers, tenants)
}

/// The longest sheet there is, 5,624 bytes: everything of it as long as it can be.
fn longest_sheet(chance: &mut Chance) -> Sheet {
    let workers = (0..64).map(|_| Worker { class: chance.below(8) as u8, list: chance.order(16) }).collect();
    let tenants = (0..16)
        .map(|_| {
            let names: Vec<u8> = chance.order(64).into_iter().take(8).collect();
            let liked = chance.order(8);
            let entries = lawful_entries(chance, 8, &liked);
            table(&names, &entries)
        })
        .collect();
    Sheet { workers, tenants, quarantined: chance.order(64) }
}

/// Good sheets with something special about them, each with a name. They are made once.
fn special_sheets() -> &'static Vec<(&'static str, Sheet)> {
    static MADE: OnceLock<Vec<(&'static str, Sheet)>> = OnceLock::new();
    MADE.get_or_init(make_special_sheets)
}

fn make_special_sheets() -> Vec<(&'static str, Sheet)> {
    let chance = &mut Chance::from_seed(1);
    let full_lists = |chance: &mut Chance| -> Vec<Worker> {
        (0..64).map(|w| Worker { class: w % 8, list: chance.order(16) }).collect()
    };
    let all: Vec<u8> = (0..64).collect();
    let mut found = vec![
        ("blank", Sheet::blank()),
        ("ring", ring()),
        ("spare", spare()),
        ("shared", shared()),
        ("twice", twice()),
        ("longest settling, 962 rounds", longest_settling()),
        ("480 rotations, groups side by side", most_rotations(true)),
        ("480 rotations, groups one after another", most_rotations(false)),
        ("one rotation of 64, tables", one_long_rotation_of_tables()),
        ("one rotation of 64, seats", one_long_rotation_of_seats()),
        ("longest sheet, 5,624 bytes, all quarantined", longest_sheet(chance)),
        ("longest sheet but for the quarantine", Sheet { quarantined: vec![], ..longest_sheet(chance) }),
    ];
    let workers = full_lists(chance);
    let tenants = (0..16).map(|_| ranked(0, &all)).collect();
    found.push(("64 by 16, all caps 0", sheet(workers, tenants)));
    let workers = full_lists(chance);
    let tenants = (0..16).map(|_| ranked(64, &[])).collect();
    found.push(("64 by 16, tenants' lists empty", sheet(workers, tenants)));
    let workers = full_lists(chance);
    let tenants = (0..16).map(|_| ranked(64, &all)).collect();
    found.push(("64 by 16, room for all", sheet(workers, tenants)));
    let workers = full_lists(chance);
    let tenants = (0..16).map(|_| seated(64, [64; 8], &all)).collect();
    found.push(("64 by 16, seats for all", sheet(workers, tenants)));
    let workers = full_lists(chance);
    let tenants = (0..16).map(|_| table(&[], &[0])).collect();
    found.push(("64 by 16, tables of no workers", sheet(workers, tenants)));
    let workers = full_lists(chance);
    let tenants = (0..16).map(|_| table(&chance.order(64)[..8], &[0; 256])).collect();
    found.push(("64 by 16, tables that choose nobody", sheet(workers, tenants)));
    let workers = (0..64).map(|_| worker(0, &[])).collect();
    let tenants = (0..16).map(|_| ranked(64, &all)).collect();
    found.push(("64 by 16, workers' lists empty", sheet(workers, tenants)));
    let workers = (0..64).map(|_| worker(7, &[0])).collect();
    found.push(("64 by 1", sheet(workers, vec![ranked(63, &all)])));
    let tenants = (0..16).map(|_| ranked(0, &[0])).collect();
    found.push((
        "1 by 16, a round for each pair and one",
        sheet(vec![Worker { class: 0, list: (0..16).collect() }], tenants),
    ));
    let side_by_side: Vec<Worker> =
        (0..16u8).map(|w| Worker { class: 0, list: (0..16).map(|k| (w + k) % 16).collect() }).collect();
    let opposed =
        (0..16u8).map(|t| ranked(1, &(0..16).map(|k| (t + 1 + k) % 16).collect::<Vec<u8>>())).collect();
    found.push(("16 by 16 round a ring, fifteen rotations of all", sheet(side_by_side, opposed)));
    found
}

// ------------------------------------------------------------------------------------------------
// Raw fields, for damaged sheets
// ------------------------------------------------------------------------------------------------

#[derive(Clone)]
struct Raw {
    tag: u8,
    content: Vec<u8>,
}

fn raw(tag: u8, content: &[u8]) -> Raw {
    Raw { tag, content: content.to_vec() }
}

fn raw_fields(bytes: &[u8]) -> Vec<Raw> {
    let mut fields = Vec::new();
    let mut place = 0;
    while place < bytes.len() {
        let field = field_at(bytes, place).unwrap();
        fields.push(raw(field.tag, field.content));
        place = field.end();
    }
    fields
}

fn bytes_of(fields: &[Raw]) -> Vec<u8> {
    let mut bytes = Vec::new();
    for field in fields {
        bytes.push(field.tag);
        bytes.extend((field.content.len() as u16).to_le_bytes());
        bytes.extend(&field.content);
    }
    bytes
}

/// Damages the fields of a sheet in one way.
fn damage_fields(chance: &mut Chance, fields: &mut Vec<Raw>) {
    if fields.is_empty() {
        return;
    }
    let worker_count = *fields[0].content.first().unwrap_or(&1);
    let tenant_count = *fields[0].content.get(1).unwrap_or(&1);
    // Each kind of field is hit about equally often.
    let tags: Vec<u8> = (1..=6).filter(|&tag| fields.iter().any(|field| field.tag == tag)).collect();
    let mut at = chance.below(fields.len());
    if !tags.is_empty() {
        let tag = chance.pick(&tags);
        let of_tag: Vec<usize> = (0..fields.len()).filter(|&i| fields[i].tag == tag).collect();
        at = chance.pick(&of_tag);
    }
    match chance.below(14) {
        0 => fields[at].tag = if chance.percent(80) { chance.below(9) as u8 } else { chance.number() as u8 },
        1 => {
            fields.remove(at);
        }
        2 => {
            let copy = fields[at].clone();
            fields.insert(at, copy);
        }
        3 => {
            let other = if chance.percent(70) { (at + 1) % fields.len() } else { chance.below(fields.len()) };
            fields.swap(at, other);
        }
        4 => {
            let length = fields[at].content.len();
            let place = chance.between(0, length);
            let byte = chance.below(9) as u8;
            fields[at].content.insert(place, byte);
        }
        5 => {
            fields[at].content.pop();
        }
        6 => {
            let length = if chance.percent(70) {
                chance.pick(&[0, 1, 2, 3, 8, 9, 10, 17, 18, 64, 65, 66, 73, 74, 135, 264, 265])
            } else {
                chance.below(300)
            };
            fields[at].content.resize(length, chance.below(3) as u8);
        }
        7 | 8 => {
            let length = fields[at].content.len();
            if length > 0 {
                let limits = [
                    0,
                    1,
                    worker_count.wrapping_sub(1),
                    worker_count,
                    worker_count.wrapping_add(1),
                    tenant_count.wrapping_sub(1),
                    tenant_count,
                    tenant_count.wrapping_add(1),
                    7,
                    8,
                    15,
                    16,
                    17,
                    63,
                    64,
                    65,
                    128,
                    255,
                ];
                let place = if chance.percent(30) { 0 } else { chance.below(length) };
                fields[at].content[place] = chance.pick(&limits);
            }
        }
        9 => {
            let length = fields[at].content.len();
            if length > 1 {
                let (from, to) = (chance.below(length), chance.below(length));
                fields[at].content[to] = fields[at].content[from];
            }
        }
        _ => damage_table(chance, fields),
    }
}

/// Damages the entries of some Table, if there is one.
fn damage_table(chance: &mut Chance, fields: &mut [Raw]) {
    let tables: Vec<usize> = (0..fields.len())
        .filter(|&i| fields[i].tag == 5 && TABLE_LENGTHS.contains(&fields[i].content.len()))
        .collect();
    if tables.is_empty() {
        return;
    }
    let content = &mut fields[chance.pick(&tables)].content;
    let n = TABLE_LENGTHS.iter().position(|&length| length == content.len()).unwrap();
    let index = chance.below(1 << n);
    match chance.below(5) {
        0 => content[n + index] = chance.number() as u8,
        1 => content[n + index] = (chance.number() as usize & index) as u8,
        2 => content[n + index] ^= 1 << chance.below(8),
        3 => {
            for index in 0..1usize << n {
                content[n + index] = (chance.number() as usize & index) as u8;
            }
        }
        _ => {
            let entries = wandering_entries(chance, n, false).unwrap();
            content[n..].copy_from_slice(&entries);
        }
    }
}

/// Damages bytes in one way, with no regard to fields.
fn damage_bytes(chance: &mut Chance, bytes: &mut Vec<u8>) {
    if bytes.is_empty() {
        return;
    }
    let at = chance.below(bytes.len());
    match chance.below(7) {
        0 => bytes.truncate(at),
        1 => bytes[at] = chance.number() as u8,
        2 => bytes[at] ^= 1 << chance.below(8),
        3 => {
            bytes.remove(at);
        }
        4 => bytes.insert(at, chance.below(10) as u8),
        5 => {
            for _ in 0..chance.between(1, 8) {
                bytes.push(chance.below(9) as u8);
            }
        }
        _ => {
            // A length, low or high byte, somewhere.
            let mut place = 0;
            let mut starts = Vec::new();
            while let Ok(field) = field_at(bytes, place) {
                starts.push(place);
                place = field.end();
            }
            if !starts.is_empty() {
                let start = chance.pick(&starts);
                bytes[start + 1 + chance.below(2)] = chance.pick(&[0, 1, 2, 3, 64, 65, 255]);
            }
        }
    }
}

/// Bytes that look a little like a sheet.
fn random_bytes(chance: &mut Chance) -> Vec<u8> {
    let mut bytes = Vec::new();
    match chance.below(3) {
        0 => {
            for _ in 0..chance.below(60) {
                bytes.push(chance.number() as u8);
            }
        }
        1 => {
            for _ in 0..chance.below(80) {
                bytes.push(chance.below(8) as u8);
            }
        }
        _ => {
            let mut fields = vec![raw(1, &[chance.between(1, 3) as u8, chance.between(1, 3) as u8])];
            for _ in 0..chance.below(10) {
                let tag = chance.between(2, 6) as u8;
                let length = match tag {
                    2 => chance.between(1, 3),
                    3 => chance.between(1, 4),
                    4 => chance.between(9, 12),
                    5 => chance.pick(&[1, 3, 6, 11]),
                    _ => chance.between(0, 2),
                };
                let content: Vec<u8> = (0..length).map(|_| chance.below(3) as u8).collect();
                fields.push(raw(tag, &content));
            }
            bytes = bytes_of(&fields);
        }
    }
    bytes
}

// ------------------------------------------------------------------------------------------------
// Boundaries
// ------------------------------------------------------------------------------------------------

/// So many workers and tenants with nothing on their lists.
fn bare(workers: usize, tenants: usize) -> Vec<Raw> {
    let mut fields = vec![raw(1, &[workers as u8, tenants as u8])];
    fields.extend(vec![raw(2, &[0]); workers]);
    fields.extend(vec![raw(3, &[0]); tenants]);
    fields.push(raw(6, &[]));
    fields
}

/// A sheet of so many workers and one tenant, with this field for the tenant.
fn one_tenant(workers: usize, tag: u8, content: &[u8]) -> Vec<u8> {
    let mut fields = bare(workers, 1);
    fields[workers + 1] = raw(tag, content);
    bytes_of(&fields)
}

fn numbers(count: usize) -> Vec<u8> {
    (0..count).map(|number| number as u8).collect()
}

/// The inputs at every boundary, each with a name.
fn edges() -> Vec<(String, Vec<u8>)> {
    let mut found: Vec<(String, Vec<u8>)> = Vec::new();
    let mut put = |name: String, bytes: Vec<u8>| found.push((name, bytes));
    let ring = ring().encoding();

    // Cutting into fields.
    put("empty".into(), vec![]);
    put("one byte".into(), vec![1]);
    put("two bytes".into(), vec![1, 2]);
    put("content missing".into(), vec![1, 2, 0]);
    put("content cut off".into(), vec![1, 2, 0, 1]);
    put("first field only".into(), vec![1, 2, 0, 1, 1]);
    put("empty field of tag 1".into(), vec![1, 0, 0]);
    put("empty field of tag 0".into(), vec![0, 0, 0]);
    put("wrong tag, cut off".into(), vec![9, 255, 255]);
    put("wrong tag and wrong length".into(), vec![9, 1, 0, 7]);
    put("right tag, wrong length, cut off".into(), vec![1, 3, 0, 1, 1]);
    put("high byte of the length counts".into(), [vec![1, 2, 1], vec![1; 258]].concat());
    for length in 0..ring.len() {
        put(format!("ring cut to {} bytes", length), ring[..length].to_vec());
    }
    for surplus in [vec![0], vec![6], vec![6, 0], vec![6, 0, 0], vec![1, 2, 3, 4, 5], vec![3, 255, 255]] {
        put(format!("ring and {} bytes more", surplus.len()), [ring.clone(), surplus].concat());
    }

    // How many workers and tenants.
    for workers in [1, 2, 63, 64] {
        for tenants in [1, 2, 15, 16] {
            put(format!("{} workers, {} tenants", workers, tenants), bytes_of(&bare(workers, tenants)));
        }
    }
    for workers in [0u8, 1, 64, 65, 255] {
        for tenants in [0u8, 1, 16, 17, 255] {
            let mut fields = bare(1, 1);
            fields[0] = raw(1, &[workers, tenants]);
            put(format!("{} workers and {} tenants said, one each", workers, tenants), bytes_of(&fields));
        }
    }
    for (workers, tenants) in [(65, 1), (65, 16), (1, 17), (64, 17)] {
        put(format!("{} workers, {} tenants", workers, tenants), bytes_of(&bare(workers, tenants)));
    }

    // Lengths of every tag, at every boundary.
    for length in [0, 1, 2, 3, 4] {
        let mut fields = bare(1, 1);
        fields[0].content = vec![1; length];
        put(format!("tag 1 of length {}", length), bytes_of(&fields));
    }
    for length in [0, 1, 2, 16, 17, 18, 19, 256 + 2] {
        for worker in [0, 2] {
            let mut fields = bare(3, 16);
            fields[1 + worker].content = numbers(length);
            if length > 0 {
                fields[1 + worker].content.rotate_right(1);
                fields[1 + worker].content[0] = 7;
            }
            put(format!("tag 2 of length {}, worker {}", length, worker), bytes_of(&fields));
        }
    }
    for length in [0, 1, 2, 64, 65, 66, 256 + 1] {
        let content: Vec<u8> = [vec![64], numbers(300)].concat()[..length].to_vec();
        put(format!("tag 3 of length {}", length), one_tenant(64, 3, &content));
        put(format!("tag 3 of length {}, three workers", length), one_tenant(3, 3, &content));
    }
    for length in [0, 1, 8, 9, 10, 72, 73, 74, 256 + 9] {
        let content: Vec<u8> = [vec![64; 9], numbers(300)].concat()[..length].to_vec();
        put(format!("tag 4 of length {}", length), one_tenant(64, 4, &content));
        put(format!("tag 4 of length {}, three workers", length), one_tenant(3, 4, &content));
    }
    for n in 0..=8usize {
        let workers = numbers(n);
        let full = [workers.clone(), entries_of(n, |set| set)].concat();
        let none = [workers.clone(), vec![0; 1 << n]].concat();
        put(format!("table of {} that chooses all", n), one_tenant(8, 5, &full));
        put(format!("table of {} that chooses nobody", n), one_tenant(8, 5, &none));
        put(format!("table of {}, one short", n), one_tenant(8, 5, &none[..none.len() - 1]));
        put(format!("table of {}, one long", n), one_tenant(8, 5, &[none.clone(), vec![0]].concat()));
        if n > 1 {
            put(format!("table of {}, a worker too few in the sheet", n), one_tenant(n - 1, 5, &none));
        }
    }
    for length in [0, 2, 4, 5, 7, 10, 12, 263, 265, 512, 521] {
        put(format!("tag 5 of length {}", length), one_tenant(8, 5, &vec![0; length]));
    }
    for length in [0, 1, 63, 64, 65, 66, 256] {
        let mut fields = bare(64, 1);
        fields.last_mut().unwrap().content = numbers(length);
        put(format!("tag 6 of length {}", length), bytes_of(&fields));
    }

    // Numbers at the ends of their ranges.
    for class in [0, 6, 7, 8, 9, 64, 255] {
        let mut fields = bare(2, 2);
        fields[2].content = vec![class, 0, 1];
        put(format!("class {}", class), bytes_of(&fields));
    }
    for listed in [0, 1, 2, 3, 15, 16, 255] {
        let mut fields = bare(2, 3);
        fields[2].content = vec![0, listed];
        put(format!("tenant {} of 3 listed", listed), bytes_of(&fields));
        let mut fields = bare(2, 16);
        fields[2].content = vec![0, listed];
        put(format!("tenant {} of 16 listed", listed), bytes_of(&fields));
    }
    for cap in [0, 1, 63, 64, 65, 66, 128, 255] {
        put(format!("cap {}", cap), one_tenant(2, 3, &[cap, 0, 1]));
        for which in 0..9 {
            let mut content = vec![1; 9];
            content[which] = cap;
            put(
                format!("seated cap {} is {}", which, cap),
                one_tenant(2, 4, &[content, vec![0, 1]].concat()),
            );
        }
    }
    for (workers, listed) in
        [(1, 0), (1, 1), (2, 1), (2, 2), (63, 62), (63, 63), (64, 63), (64, 64), (64, 255)]
    {
        put(format!("ranked lists {} of {}", listed, workers), one_tenant(workers, 3, &[1, listed]));
        put(
            format!("seated lists {} of {}", listed, workers),
            one_tenant(workers, 4, &[&[1; 9][..], &[listed]].concat()),
        );
        put(format!("table names {} of {}", listed, workers), one_tenant(workers, 5, &[listed, 0, 1]));
        let mut fields = bare(workers, 1);
        fields.last_mut().unwrap().content = vec![listed];
        put(format!("quarantined {} of {}", listed, workers), bytes_of(&fields));
    }

    // A number twice, and what does not count as twice.
    for list in [vec![0, 0], vec![0, 1, 0], vec![1, 2, 2, 1], vec![2, 1, 0, 1, 2]] {
        let name = format!("{:?}", list);
        let mut fields = bare(3, 3);
        fields[2].content = [vec![0], list.clone()].concat();
        put(format!("worker lists {}", name), bytes_of(&fields));
        put(format!("ranked lists {}", name), one_tenant(3, 3, &[vec![0], list.clone()].concat()));
        put(format!("seated lists {}", name), one_tenant(3, 4, &[vec![0; 9], list.clone()].concat()));
        let mut fields = bare(3, 3);
        fields.last_mut().unwrap().content = list.clone();
        put(format!("quarantined {}", name), bytes_of(&fields));
    }
    put("table names 0 0".into(), one_tenant(3, 5, &[0, 0, 0, 1, 2, 3]));
    put("table names 1 2 1".into(), one_tenant(3, 5, &[1, 2, 1, 0, 1, 2, 3, 4, 5, 6, 7]));
    put("class and list alike".into(), {
        let mut fields = bare(3, 3);
        fields[1].content = vec![2, 2, 0];
        bytes_of(&fields)
    });
    put("cap and list alike".into(), one_tenant(3, 3, &[1, 1, 0]));
    put("caps and list alike".into(), one_tenant(3, 4, &[0, 1, 2, 0, 1, 2, 0, 1, 2, 2, 1, 0]));
    put("names and entries alike".into(), one_tenant(3, 5, &[0, 1, 0, 1, 2, 3]));

    // Tags that are not due, at each place of a sheet with every kind of tenant.
    let every_kind = vec![
        raw(1, &[2, 3]),
        raw(2, &[0, 0, 1, 2]),
        raw(2, &[1, 2, 1, 0]),
        raw(3, &[1, 1, 0]),
        raw(4, &[2, 1, 1, 1, 1, 1, 1, 1, 1, 0, 1]),
        raw(5, &[0, 1, 0, 1, 2, 1]),
        raw(6, &[]),
    ];
    put("every kind".into(), bytes_of(&every_kind));
    for place in 0..every_kind.len() {
        for tag in [0, 1, 2, 3, 4, 5, 6, 7, 8, 255] {
            let mut fields = every_kind.clone();
            fields[place].tag = tag;
            put(format!("field {} with tag {}", place, tag), bytes_of(&fields));
        }
        let mut fields = every_kind.clone();
        fields.remove(place);
        put(format!("field {} missing", place), bytes_of(&fields));
        let mut fields = every_kind.clone();
        fields.insert(place, every_kind[place].clone());
        put(format!("field {} twice", place), bytes_of(&fields));
        for other in 0..place {
            let mut fields = every_kind.clone();
            fields.swap(place, other);
            put(format!("fields {} and {} exchanged", other, place), bytes_of(&fields));
        }
        let whole = bytes_of(&every_kind);
        let start = bytes_of(&every_kind[..place]).len();
        for (i, byte) in [(1, 0), (1, 255), (2, 1), (2, 255)] {
            let mut bytes = whole.clone();
            bytes[start + i] = byte;
            put(format!("field {} with byte {} of its length {}", place, i, byte), bytes);
        }
    }
    let kinds: [(u8, &[u8]); 3] = [(3, &[1, 0]), (4, &[1, 1, 1, 1, 1, 1, 1, 1, 1, 0]), (5, &[0, 0, 1])];
    for (first, one) in kinds {
        for (second, two) in kinds {
            for (third, three) in kinds {
                let mut fields = bare(1, 3);
                fields[2] = raw(first, one);
                fields[3] = raw(second, two);
                fields[4] = raw(third, three);
                put(format!("tenant tags {} {} {}", first, second, third), bytes_of(&fields));
            }
        }
    }
    for length in 0..bytes_of(&every_kind).len() {
        put(format!("every kind cut to {} bytes", length), bytes_of(&every_kind)[..length].to_vec());
    }

    // Which of several faults comes first.
    put("outside after twice, one field".into(), one_tenant(3, 3, &[1, 0, 0, 9]));
    put("twice and cap outside".into(), one_tenant(3, 3, &[65, 0, 0]));
    put("wrong length and outside".into(), one_tenant(3, 5, &[9, 9, 9, 9]));
    put("falling tag of wrong length".into(), {
        let mut fields = bare(1, 2);
        fields[2] = raw(4, &[0; 9]);
        fields[3] = raw(3, &[]);
        bytes_of(&fields)
    });
    put("twice in one field, outside in the next".into(), {
        let mut fields = bare(2, 2);
        fields[1].content = vec![0, 1, 1];
        fields[2].content = vec![8];
        bytes_of(&fields)
    });
    put("table breach, then a wrong tag".into(), {
        let mut fields = bare(2, 2);
        fields[3] = raw(5, &[0, 1, 0, 0, 2, 3]);
        bytes_of(&fields)
    });
    put("quarantine twice, and surplus".into(), {
        let mut fields = bare(2, 1);
        fields[4].content = vec![1, 1];
        [bytes_of(&fields), vec![9, 9]].concat()
    });
    put("quarantine outside and twice".into(), {
        let mut fields = bare(2, 1);
        fields[4].content = vec![1, 1, 2];
        bytes_of(&fields)
    });
    put("table worker outside, entry outside".into(), one_tenant(2, 5, &[0, 2, 9, 9, 9, 9]));
    put("table workers alike, entry outside".into(), one_tenant(2, 5, &[1, 1, 9, 9, 9, 9]));
    put(
        "entry outside late, substitution broken early".into(),
        one_tenant(3, 5, &[0, 1, 2, 0, 0, 2, 3, 4, 5, 6, 8]),
    );
    put(
        "monotone broken early, substitution late".into(),
        one_tenant(3, 5, &[0, 1, 2, 0, 1, 2, 0, 0, 1, 2, 4]),
    );
    put("all entries 255".into(), one_tenant(8, 5, &[&numbers(8)[..], &[255; 256]].concat()));

    // Breaches at the far end of a large table.
    let ranked_entries = entries_of(8, |set| greedy(set, &numbers(8), |taken, _| taken.count_ones() < 3));
    for (index, entry) in
        [(255, 0), (255, 3), (255, 131), (255, 135), (255, 6), (254, 12), (128, 0), (1, 0), (7, 3)]
    {
        let mut entries = ranked_entries.clone();
        entries[index] = entry;
        put(
            format!("large table, entry {} of index {}", entry, index),
            one_tenant(8, 5, &[numbers(8), entries].concat()),
        );
    }

    // All tables of one and of two workers, entries up to one bit outside for one.
    for code in 0..16u8 {
        put(format!("table of one, {}", code), one_tenant(2, 5, &[1, code % 4, code / 4]));
    }
    for code in 0..256usize {
        let entries: Vec<u8> = (0..4).map(|i| ((code >> (2 * i)) % 4) as u8).collect();
        put(format!("table of two, {:?}", entries), one_tenant(2, 5, &[&[1, 0], &entries[..]].concat()));
    }

    // The longest inputs.
    for total in [65_535, 65_536, 65_537, 70_000] {
        let mut bytes = ring.clone();
        bytes.resize(total, 6);
        put(format!("ring and surplus, {} bytes", total), bytes);
        let mut bytes = [vec![6, 253, 255], vec![0; 65_533]].concat();
        bytes.resize(total, 0);
        put(format!("one long field, {} bytes", total), bytes);
    }
    for (name, sheet) in special_sheets() {
        put(name.to_string(), sheet.encoding());
    }
    found
}

// ------------------------------------------------------------------------------------------------
// The generators
// ------------------------------------------------------------------------------------------------

pub fn sheets(out: &mut dyn Write, seed: u64, count: usize) -> io::Result<()> {
    let chance = &mut Chance::from_seed(seed);
    for _ in 0..count {
        writeln!(out, "{}", to_hex(&any_sheet(chance).encoding()))?;
    }
    Ok(())
}

pub fn damaged(out: &mut dyn Write, seed: u64, count: usize) -> io::Result<()> {
    let chance = &mut Chance::from_seed(seed);
    for _ in 0..count {
        if chance.percent(8) {
            writeln!(out, "{}", to_hex(&random_bytes(chance)))?;
            continue;
        }
        let sheet = match chance.below(10) {
            0 => any_sheet(chance),
            1..=3 => {
                let (workers, tenants) = (chance.between(1, 9), chance.between(1, 4));
                random_sheet(chance, workers, tenants)
            }
            _ => {
                let (workers, tenants) = (chance.between(1, 4), chance.between(1, 4));
                random_sheet(chance, workers, tenants)
            }
        };
        let mut fields = raw_fields(&sheet.encoding());
        if chance.percent(75) {
            for _ in 0..chance.pick(&[1, 1, 1, 2, 3]) {
                damage_fields(chance, &mut fields);
            }
        }
        let mut bytes = bytes_of(&fields);
        if chance.percent(35) {
            for _ in 0..chance.pick(&[1, 1, 2]) {
                damage_bytes(chance, &mut bytes);
            }
        }
        writeln!(out, "{}", to_hex(&bytes))?;
    }
    Ok(())
}

pub fn edge(out: &mut dyn Write, names: bool) -> io::Result<()> {
    for (name, bytes) in edges() {
        writeln!(out, "{}", if names { name } else { to_hex(&bytes) })?;
    }
    Ok(())
}

pub fn special(out: &mut dyn Write, names: bool) -> io::Result<()> {
    for (name, sheet) in special_sheets() {
        writeln!(out, "{}", if names { name.to_string() } else { to_hex(&sheet.encoding()) })?;
    }
    Ok(())
}

/// Every table of up to two workers, and of three with entries within their index. Each stands in a sheet
/// of four workers that list its tenant.
pub fn tables(out: &mut dyn Write) -> io::Result<()> {
    let mut put = |names: &[u8], entries: &[u8]| {
        let mut fields = bare(4, 1);
        for worker in 1..=4 {
            fields[worker].content = vec![0, 0];
        }
        fields[5] = raw(5, &[names, entries].concat());
        writeln!(out, "{}", to_hex(&bytes_of(&fields)))
    };
    for entry in 0..=255 {
        put(&[], &[entry])?;
    }
    for code in 0..16 {
        put(&[2], &[code % 4, code / 4])?;
    }
    for code in 0..256 {
        put(&[3, 1], &[code as u8 % 4, (code / 4) as u8 % 4, (code / 16) as u8 % 4, (code / 64) as u8])?;
    }
    // Indices 1, 2 and 4 have one bit, 3, 5 and 6 two, and 7 three: twelve bits in all.
    for code in 0..4096u32 {
        let mut rest = code;
        let mut entries = Vec::new();
        for index in 0..8u8 {
            let mut entry = 0;
            for bit in 0..3 {
                if (index >> bit) & 1 == 1 {
                    entry |= ((rest & 1) as u8) << bit;
                    rest >>= 1;
                }
            }
            entries.push(entry);
        }
        put(&[0, 3, 2], &entries)?;
    }
    Ok(())
}

/// Stable placements, such that are off by a little, and random ones, each with its sheet.
pub fn checks(out: &mut dyn Write, seed: u64, count: usize) -> io::Result<()> {
    let chance = &mut Chance::from_seed(seed);
    for _ in 0..count {
        let sheet = any_sheet(chance);
        let (lists, policy) = (sheet.lists(), sheet.policy());
        let workers = lists.workers();
        let (mut placement, _) = settle(&lists, policy.as_ref());
        for _ in 0..chance.pick(&[0, 1, 2, 5, 20]) {
            let found = rotations(&lists, policy.as_ref(), &placement);
            if found.is_empty() {
                break;
            }
            for one in &found[chance.below(found.len())] {
                placement[one.worker as usize] = one.to;
            }
        }
        let listed = |chance: &mut Chance, worker: usize| {
            let list = &lists.lists[worker];
            if list.is_empty() || chance.percent(10) {
                NONE
            } else {
                chance.pick(list)
            }
        };
        match chance.below(10) {
            0..=3 => {}
            4..=6 => {
                for _ in 0..chance.pick(&[1, 1, 1, 2, 3]) {
                    let worker = chance.below(workers);
                    match chance.below(6) {
                        0 => placement[worker] = NONE,
                        1 | 2 => placement[worker] = listed(chance, worker),
                        3 => placement.swap(worker, chance.below(workers)),
                        4 => placement[worker] = chance.below(lists.tenants) as u8,
                        _ => placement[worker] = chance.pick(&[lists.tenants as u8, 15, 16, 64, 254, 255]),
                    }
                }
            }
            7 | 8 => {
                for worker in 0..workers {
                    placement[worker] = listed(chance, worker);
                }
            }
            _ => {
                for worker in 0..workers {
                    placement[worker] = chance.number() as u8;
                }
            }
        }
        // Bytes past the last worker are not looked at, so anything may stand there.
        let filler = chance.below(3);
        for worker in workers..MOST_WORKERS {
            placement[worker] = match filler {
                0 => NONE,
                1 => chance.below(lists.tenants) as u8,
                _ => chance.number() as u8,
            };
        }
        writeln!(out, "{} {}", to_hex(&sheet.encoding()), to_hex(&placement))?;
    }
    Ok(())
}

/// Questions to policies: tenants up to past the count, sets with workers up to past the sheet's.
pub fn chooses(out: &mut dyn Write, seed: u64, count: usize) -> io::Result<()> {
    let chance = &mut Chance::from_seed(seed);
    for _ in 0..count {
        let sheet = any_sheet(chance);
        let tenants = sheet.tenants.len();
        let tenant =
            if chance.percent(90) { chance.below(tenants) } else { chance.pick(&[tenants, 15, 16, 17, 255]) };
        let mut set = match chance.below(4) {
            0 => chance.number() & chance.number(),
            1 => chance.number(),
            2 => chance.number() | chance.number(),
            _ => u64::MAX,
        };
        if chance.percent(60) {
            set &= u64::MAX >> (64 - sheet.workers.len());
        }
        writeln!(out, "{} {} {}", to_hex(&sheet.encoding()), tenant, set)?;
    }
    Ok(())
}

/// Sheets to be written into buffers that are too short, just right or too long.
pub fn writes(out: &mut dyn Write, seed: u64, count: usize) -> io::Result<()> {
    let chance = &mut Chance::from_seed(seed);
    for _ in 0..count {
        let bytes = any_sheet(chance).encoding();
        let length = match chance.below(6) {
            0 => bytes.len() - 1,
            1 | 2 => bytes.len(),
            3 => bytes.len() + 1,
            4 => chance.below(bytes.len()),
            _ => bytes.len() + chance.below(100),
        };
        let buffer: Vec<u8> = (0..length).map(|_| chance.number() as u8).collect();
        writeln!(out, "{} {}", to_hex(&bytes), to_hex(&buffer))?;
    }
    Ok(())
}

/// The greatest number that a ticket can bear: a drain takes a number and leaves two at least.
const GREATEST_TICKET: u64 = u64::MAX - 3;

/// The first number of a board: small, anything, or so near the end that numbers run short.
fn first_number(chance: &mut Chance, calls: usize) -> u64 {
    match chance.below(8) {
        0 => 0,
        1..=3 => 1,
        4 => chance.number() >> chance.below(64),
        5 => u64::MAX - chance.below(70) as u64,
        _ => u64::MAX - chance.below(4 * calls + 70) as u64,
    }
}

/// Scripts of board calls: lawful ones mixed with those that are refused, with blank tickets, used ones
/// and those of other boards. Only such tickets occur as some board could have given.
pub fn scripts(out: &mut dyn Write, seed: u64, count: usize, calls: usize) -> io::Result<()> {
    let chance = &mut Chance::from_seed(seed);
    let mut old_tickets: Vec<u64> = vec![0, 1, GREATEST_TICKET];
    for _ in 0..count {
        // Few sheets without any rotation, for not much can happen there.
        let mut sheet = any_sheet(chance);
        for _ in 0..5 {
            if has_rotation(&sheet) {
                break;
            }
            sheet = any_sheet(chance);
        }
        let sheet_text = to_hex(&sheet.encoding());
        let first = first_number(chance, calls);
        writeln!(out, "sheet {} {}", sheet_text, first)?;
        let (mut board, _) = Board::make(sheet.lists(), sheet.policy(), first);
        let workers = board.lists.workers();
        let mut slip = [NO_EVENT; 64];
        // How often a call is likely to be refused, and how often the board is set back. Some scripts only
        // go forward, so that they come to the end.
        let only_forward = chance.percent(20);
        let often = |chance: &mut Chance, rates: &[usize]| if only_forward { 0 } else { chance.pick(rates) };
        let nonsense = often(chance, &[0, 5, 15, 30]);
        let backward = often(chance, &[0, 5, 20, 45]);
        let rewinding = often(chance, &[0, 1, 3, 10]);
        let withdrawing = often(chance, &[0, 5, 15]);
        for _ in 0..calls {
            if u64::MAX - board.next < 3 && chance.percent(20) {
                // Hardly anything is accepted from here on; another board is made of the same sheet.
                let first = first_number(chance, calls);
                writeln!(out, "sheet {} {}", sheet_text, first)?;
                board = Board::make(sheet.lists(), sheet.policy(), first).0;
            }
            if chance.percent(nonsense) {
                let ticket = match chance.below(4) {
                    0 => None,
                    1 => Some(chance.pick(&old_tickets)),
                    2 => Some((chance.number() >> chance.below(64)).min(GREATEST_TICKET)),
                    _ => {
                        let near = board.next.wrapping_add(chance.below(5) as u64).wrapping_sub(3);
                        Some(near.min(GREATEST_TICKET))
                    }
                };
                let ticket_text = ticket.map_or("blank".to_string(), |number| number.to_string());
                match chance.below(5) {
                    0 | 1 => {
                        writeln!(out, "commit {}", ticket_text)?;
                        board.commit(ticket, &mut slip);
                    }
                    2 => {
                        writeln!(out, "withdraw {}", ticket_text)?;
                        board.withdraw(ticket);
                    }
                    3 => {
                        let worker = chance.pick(&[0, workers - 1, workers, 63, 64, 65, 128, 255]) as u64;
                        writeln!(out, "open {}", worker)?;
                        if let (_, Some(number)) = board.open(worker, &mut slip) {
                            old_tickets.push(number);
                        }
                    }
                    _ => {
                        writeln!(out, "back")?;
                        board.back(&mut slip);
                    }
                }
            } else if chance.percent(rewinding) {
                writeln!(out, "rewind")?;
                board.rewind(&mut slip);
            } else if let Some((number, _)) = board.drain {
                if chance.percent(withdrawing) {
                    writeln!(out, "withdraw {}", number)?;
                    board.withdraw(Some(number));
                } else {
                    writeln!(out, "commit {}", number)?;
                    board.commit(Some(number), &mut slip);
                }
            } else if chance.percent(backward) {
                writeln!(out, "back")?;
                board.back(&mut slip);
            } else {
                // A worker on a rotation, the first from a random one on; or a random one if there is none.
                let start = chance.below(workers);
                let on_rotation = (0..workers).map(|k| (start + k) % workers).find(|&worker| {
                    rotation_of(&board.lists, board.policy.as_ref(), &board.placement, worker as u8).is_some()
                });
                let worker = match on_rotation {
                    Some(worker) => worker,
                    None if chance.percent(50) => {
                        let word = if chance.percent(50) { "back" } else { "rewind" };
                        writeln!(out, "{}", word)?;
                        if word == "back" {
                            board.back(&mut slip);
                        } else {
                            board.rewind(&mut slip);
                        }
                        continue;
                    }
                    None => start,
                };
                writeln!(out, "open {}", worker)?;
                if let (_, Some(number)) = board.open(worker as u64, &mut slip) {
                    old_tickets.push(number);
                }
            }
            if old_tickets.len() > 50 {
                old_tickets.remove(0);
            }
        }
    }
    Ok(())
}

fn random_event(chance: &mut Chance) -> Event {
    Event {
        number: chance.number() >> chance.below(64),
        kind: chance.between(1, 4) as u8,
        worker: chance.below(64) as u8,
        from: chance.below(16) as u8,
        to: chance.below(16) as u8,
    }
}

/// Journals, about half of them damaged.
pub fn journals(out: &mut dyn Write, seed: u64, count: usize) -> io::Result<()> {
    let chance = &mut Chance::from_seed(seed);
    for _ in 0..count {
        let mut bytes = Vec::new();
        for _ in 0..chance.below(6) {
            let mut event = event_bytes(&random_event(chance));
            if chance.percent(20) {
                for _ in 0..chance.pick(&[1, 1, 2, 3]) {
                    match chance.below(6) {
                        0 => event[0] = chance.pick(&[0, 1, 6, 8, 255]),
                        1 => {
                            let length = chance.pick(&[0, 11, 13, 20]);
                            event.resize(3 + length, 1);
                            event[1] = length as u8;
                        }
                        2 => event[chance.between(1, 2)] = chance.number() as u8,
                        _ => {
                            let (place, limit) =
                                chance.pick(&[(11, 0), (11, 5), (12, 64), (13, 16), (14, 16)]);
                            if place < event.len() {
                                event[place] = if chance.percent(60) { limit } else { chance.number() as u8 };
                            }
                        }
                    }
                }
            }
            bytes.extend(event);
        }
        if chance.percent(20) && !bytes.is_empty() {
            bytes.truncate(chance.below(bytes.len()));
        }
        if chance.percent(5) {
            bytes.push(chance.pick(&[0, 7]));
        }
        writeln!(out, "{}", to_hex(&bytes))?;
    }
    Ok(())
}

/// Events to be added to journals of little room, some of them outside their ranges.
pub fn adds(out: &mut dyn Write, seed: u64, count: usize) -> io::Result<()> {
    let chance = &mut Chance::from_seed(seed);
    for _ in 0..count {
        writeln!(out, "room {}", chance.pick(&[0, 14, 15, 16, 29, 30, 31, 44, 45, 100]))?;
        for _ in 0..chance.between(1, 8) {
            let mut event = random_event(chance);
            match chance.below(12) {
                0 => event.kind = chance.pick(&[0, 5, 255]),
                1 => event.worker = chance.pick(&[64, 65, 255]),
                2 => event.from = chance.pick(&[16, 17, 255]),
                3 => event.to = chance.pick(&[16, 17, 255]),
                4 => event.number = chance.pick(&[0, u64::MAX, u64::MAX - 1, 255, 256]),
                _ => {}
            }
            writeln!(
                out,
                "add {} {} {} {} {}",
                event.number, event.kind, event.worker, event.from, event.to
            )?;
        }
    }
    Ok(())
}
