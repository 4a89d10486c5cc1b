//! The plain twin of the timing program: the same words with the same steps, and the same words on
//! the command line, `words THREADS ROWS CALLS`.

use std::sync::atomic::{AtomicU64, Ordering::SeqCst};
use std::time::Instant;
use std::{env, thread};

#[derive(Clone, Copy, PartialEq)]
enum Role {
    Moved,
    #[allow(dead_code)]
    Seen,
}

#[derive(Clone, Copy)]
struct Want {
    number: u64,
    comp: u16,
    role: Role,
}

const NO_WANT: Want = Want { number: 0, comp: 0, role: Role::Moved };

/// Wants in place.
struct Wants {
    len: usize,
    wants: [Want; 32],
}

impl Wants {
    fn of(list: &[Want]) -> Option<Wants> {
        let rise = list.windows(2).all(|pair| pair[0].comp < pair[1].comp);
        let numbered = list.iter().all(|want| want.number >= 1);
        let moving = list.iter().any(|want| want.role == Role::Moved);
        if list.len() > 32 || !rise || !numbered || !moving {
            return None;
        }
        let mut wants = [NO_WANT; 32];
        wants[..list.len()].copy_from_slice(list);
        Some(Wants { len: list.len(), wants })
    }

    fn as_slice(&self) -> &[Want] {
        &self.wants[..self.len]
    }
}

enum Attempt {
    Granted(#[allow(dead_code)] u64),
    Used { #[allow(dead_code)] comp: u16, used: u64 },
    Busy(#[allow(dead_code)] u16),
    Unknown(#[allow(dead_code)] u16),
}

/// The ticket, a word for each row, and the opening numbers.
struct WordTable {
    words: Vec<AtomicU64>,
    comps: Vec<u16>,
}

impl WordTable {
    fn new(entries: &[(u16, u64)]) -> WordTable {
        let rows = entries.iter().map(|entry| 2 * entry.1);
        let opening = entries.iter().map(|entry| entry.1);
        WordTable {
            words: std::iter::once(0).chain(rows).chain(opening).map(AtomicU64::new).collect(),
            comps: entries.iter().map(|entry| entry.0).collect(),
        }
    }

    fn row_of(&self, comp: u16) -> Option<usize> {
        self.comps.iter().position(|other| *other == comp)
    }

    /// The claimed rows get back the numbers that they had.
    fn release(&self, claimed: &[(usize, u64)]) {
        for (row, used) in claimed.iter().rev() {
            self.words[row + 1].store(2 * used, SeqCst);
        }
    }

    fn try_reserve(&self, request: &Request) -> Attempt {
        let wants = request.wants.as_slice();
        if let Some(want) = wants.iter().find(|want| self.row_of(want.comp).is_none()) {
            return Attempt::Unknown(want.comp);
        }
        let mut claimed = [(0, 0); 32];
        for (place, want) in wants.iter().enumerate() {
            let row = self.row_of(want.comp).unwrap();
            let word = &self.words[row + 1];
            let found = word.load(SeqCst);
            let used = found / 2;
            if found % 2 == 1 {
                self.release(&claimed[..place]);
                return Attempt::Busy(want.comp);
            }
            if want.number <= used {
                self.release(&claimed[..place]);
                return Attempt::Used { comp: want.comp, used };
            }
            if word.compare_exchange(found, found + 1, SeqCst, SeqCst).is_err() {
                self.release(&claimed[..place]);
                return Attempt::Busy(want.comp);
            }
            claimed[place] = (row, used);
        }
        let serial = self.words[0].fetch_add(1, SeqCst);
        for ((row, used), want) in claimed.iter().zip(wants).rev() {
            let number = if want.role == Role::Moved { want.number } else { *used };
            self.words[row + 1].store(2 * number, SeqCst);
        }
        Attempt::Granted(serial)
    }
}

fn moved(comp: u16, number: u64) -> Want {
    Want { number, comp, role: Role::Moved }
}

/// What is asked for, as it is sent.
struct Request {
    wants: Wants,
    #[allow(dead_code)]
    request: u64,
    #[allow(dead_code)]
    class: u16,
    #[allow(dead_code)]
    inter: u16,
}

/// The requests of a thread: the one with number n stands at place n - 1.
fn requests(rows: (u16, u16), calls: u64) -> Vec<Request> {
    (1..=calls)
        .filter_map(|number| Wants::of(&[moved(rows.0, number), moved(rows.1, number)]))
        .map(|wants| Request { wants, request: 1, class: 0, inter: 0 })
        .collect()
}

fn reserve_all(table: &WordTable, requests: &[Request]) -> u64 {
    let (mut place, mut granted) = (0, 0);
    for _ in 0..requests.len() {
        let Some(request) = requests.get(place) else {
            break;
        };
        match table.try_reserve(request) {
            Attempt::Granted(_) => {
                granted += 1;
                place += 1;
            }
            Attempt::Used { used, .. } => place = used as usize,
            _ => {}
        }
    }
    granted
}

fn main() {
    let words: Vec<String> = env::args().collect();
    let threads: u16 = words[2].parse().unwrap();
    let calls: u64 = words[4].parse().unwrap();
    let rows = |place: u16| if words[3] == "shared" { (0, 1) } else { (2 * place, 2 * place + 1) };
    let entries: Vec<(u16, u64)> = (0..8).map(|comp| (comp, 0)).collect();
    let table = WordTable::new(&entries);
    let lists: Vec<_> = (0..4).map(|place| requests(rows(place), calls)).collect();
    let begun = Instant::now();
    let granted: u64 = if threads == 1 {
        reserve_all(&table, &lists[0])
    } else {
        thread::scope(|scope| {
            let runs: Vec<_> = lists[1..usize::from(threads)]
                .iter()
                .map(|list| {
                    let table = &table;
                    scope.spawn(move || reserve_all(table, list))
                })
                .collect();
            let own = reserve_all(&table, &lists[0]);
            own + runs.into_iter().map(|run| run.join().unwrap()).sum::<u64>()
        })
    };
    println!("{granted} {}", begun.elapsed().as_nanos());
}
