//! The plain twin of the timing program: the same table over a `Vec` of rows, with the same tests
//! in the same order, and the same words: `MODE ROWS WANTS ROUNDS`.

#[derive(Clone, Copy, PartialEq)]
enum Role {
    Moved,
    #[allow(dead_code)]
    Seen,
}

#[derive(Clone, Copy)]
struct Want {
    number: u64,
    comp: u16,
    role: Role,
}

const NO_WANT: Want = Want { number: 0, comp: 0, role: Role::Moved };

/// Wants in place, of which a copy takes those that are there.
struct Wants {
    len: usize,
    wants: [Want; 32],
}

impl Wants {
    fn of(list: &[Want]) -> Wants {
        let mut wants = [NO_WANT; 32];
        wants[..list.len()].copy_from_slice(list);
        Wants { len: list.len(), wants }
    }

    fn as_slice(&self) -> &[Want] {
        &self.wants[..self.len]
    }
}

impl Clone for Wants {
    fn clone(&self) -> Wants {
        Wants { len: self.len, wants: self.wants }
    }
}

#[allow(dead_code)]
struct Grant {
    inter: u16,
    wants: Wants,
}

struct Request {
    inter: u16,
    wants: Wants,
}

#[derive(Clone, Copy)]
struct Row {
    used: u64,
    comp: u16,
}

#[allow(dead_code)]
enum Decision {
    Granted(u64),
    Refused { comp: u16, used: u64 },
}

#[allow(dead_code)]
enum Fault {
    UnknownRow(u16),
    Memory,
    Ended,
}

#[allow(dead_code)]
struct Table {
    rows: Vec<Row>,
    floor: Vec<Row>,
    journal: Vec<Grant>,
    serial: u64,
}

impl Table {
    fn new(entries: &[(u16, u64)], serial: u64) -> Table {
        let rows: Vec<Row> = entries.iter().map(|e| Row { used: e.1, comp: e.0 }).collect();
        Table { floor: rows.clone(), rows, journal: Vec::new(), serial }
    }

    fn decide(&mut self, request: &Request) -> Result<Decision, Fault> {
        let wants = request.wants.as_slice();
        let mut places = [0usize; 32];
        for (place, want) in places.iter_mut().zip(wants) {
            match self.rows.binary_search_by_key(&want.comp, |row| row.comp) {
                Ok(found) => *place = found,
                Err(_) => return Err(Fault::UnknownRow(want.comp)),
            }
        }
        for (place, want) in places.iter().zip(wants) {
            let used = self.rows[*place].used;
            if want.number <= used {
                return Ok(Decision::Refused { comp: want.comp, used });
            }
        }
        if self.serial == u64::MAX {
            return Err(Fault::Ended);
        }
        if self.journal.try_reserve(1).is_err() {
            return Err(Fault::Memory);
        }
        self.journal.push(Grant { inter: request.inter, wants: request.wants.clone() });
        for (place, want) in places.iter().zip(wants) {
            if want.role == Role::Moved {
                self.rows[*place].used = want.number;
            }
        }
        let serial = self.serial;
        self.serial += 1;
        Ok(Decision::Granted(serial))
    }
}

const REQUESTS: u64 = 200;

fn main() {
    let words: Vec<String> = std::env::args().collect();
    let number = |place: usize| words.get(place).and_then(|w| w.parse::<u32>().ok()).unwrap_or(0);
    let (refuse, rows, wants, rounds) = (words[1] == "refuse", number(2), number(3), number(4));
    let apart = rows / wants;
    let requests: Vec<Request> = (1..=REQUESTS)
        .map(|number| {
            let list: Vec<Want> = (0..wants)
                .map(|place| Want {
                    number: if refuse && place + 1 == wants { 1 } else { number },
                    comp: (place * apart) as u16,
                    role: Role::Moved,
                })
                .collect();
            Request { inter: 0, wants: Wants::of(&list) }
        })
        .collect();
    let entries: Vec<(u16, u64)> = (0..rows).map(|comp| (comp as u16, 0)).collect();
    let mut granted: u64 = 0;
    for _ in 0..rounds {
        let mut table = Table::new(&entries, 0);
        table.journal.reserve(requests.len());
        for request in &requests {
            if let Ok(Decision::Granted(_)) = table.decide(request) {
                granted += 1;
            }
        }
    }
    println!("{granted}");
}
