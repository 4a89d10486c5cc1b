//! The plain twin of the timing program: the same frames, read in place with the same faults in the
//! same order, and the same words: `DO KIND PARTS ROUNDS`.

use std::sync::Arc;

#[derive(Clone, Copy, Debug, PartialEq)]
enum Fault {
    Kind,
    Short,
    Count,
    Role,
    Order,
    NoMover,
    ZeroNumber,
    PortNo,
    Long,
}

#[derive(Clone, Copy, PartialEq)]
enum Role {
    Moved,
    Seen,
}

#[derive(Clone, Copy)]
struct Want {
    number: u64,
    comp: u16,
    role: Role,
}

const NO_WANT: Want = Want { number: 0, comp: 0, role: Role::Seen };

/// Values in place.
#[derive(Clone, Copy)]
struct Values {
    values: [u32; 8],
    len: usize,
}

impl Values {
    fn of(list: &[u32]) -> Values {
        let mut values = [0; 8];
        values[..list.len()].copy_from_slice(list);
        Values { values, len: list.len() }
    }

    fn as_slice(&self) -> &[u32] {
        &self.values[..self.len]
    }
}

/// Wants in place.
struct Wants {
    wants: [Want; 32],
    len: usize,
}

impl Wants {
    fn of(list: &[Want]) -> Wants {
        let mut wants = [NO_WANT; 32];
        wants[..list.len()].copy_from_slice(list);
        Wants { wants, len: list.len() }
    }

    fn as_slice(&self) -> &[Want] {
        &self.wants[..self.len]
    }
}

struct Offer {
    number: u64,
    values: Values,
    comp: u16,
    ports: u16,
}

struct Request {
    wants: Wants,
    request: u64,
    class: u16,
    inter: u16,
}

#[derive(Clone, Copy)]
#[allow(dead_code)]
enum Reply {
    Granted { class: u16, request: u64, inter: u16, serial: u64 },
    Refused { class: u16, request: u64, inter: u16, comp: u16, used: u64 },
}

struct Notify {
    number: u64,
    values: Values,
    comp: u16,
    port: u8,
}

enum Message {
    Offer(Offer),
    Request(Request),
    Reply(Reply),
    Notify(Notify),
}

/// Values as they lie in the source.
#[derive(Clone, Copy)]
struct Vars<'a>(&'a [u8]);

impl Vars<'_> {
    fn get(&self, i: usize) -> Option<u32> {
        let word = self.0.get(4 * i..4 * i + 4)?;
        Some(u32::from_be_bytes(word.try_into().unwrap()))
    }
}

struct OfferFrame<'a> {
    number: u64,
    vars: Vars<'a>,
    comp: u16,
    ports: u16,
}

struct ReserveFrame<'a> {
    request: u64,
    entries: &'a [u8],
    class: u16,
    inter: u16,
}

impl ReserveFrame<'_> {
    fn entry(&self, i: usize) -> Option<Want> {
        let entry = self.entries.get(11 * i..11 * i + 11)?;
        Some(Want {
            comp: u16::from_be_bytes([entry[0], entry[1]]),
            role: if entry[2] == 1 { Role::Moved } else { Role::Seen },
            number: u64::from_be_bytes(entry[3..].try_into().unwrap()),
        })
    }
}

struct NotifyFrame<'a> {
    number: u64,
    vars: Vars<'a>,
    comp: u16,
    port: u8,
}

enum Frame<'a> {
    Offer(OfferFrame<'a>),
    Reserve(ReserveFrame<'a>),
    Reply(Reply),
    Notify(NotifyFrame<'a>),
}

/// What is left of the bytes.
struct Reader<'a>(&'a [u8]);

impl<'a> Reader<'a> {
    fn take(&mut self, len: usize) -> Result<&'a [u8], Fault> {
        let (front, rest) = self.0.split_at_checked(len).ok_or(Fault::Short)?;
        self.0 = rest;
        Ok(front)
    }

    fn byte(&mut self) -> Result<u8, Fault> {
        Ok(self.take(1)?[0])
    }

    fn u16(&mut self) -> Result<u16, Fault> {
        Ok(u16::from_be_bytes(self.take(2)?.try_into().unwrap()))
    }

    fn u64(&mut self) -> Result<u64, Fault> {
        Ok(u64::from_be_bytes(self.take(8)?.try_into().unwrap()))
    }

    fn positive(&mut self) -> Result<u64, Fault> {
        match self.u64()? {
            0 => Err(Fault::ZeroNumber),
            number => Ok(number),
        }
    }

    fn values(&mut self) -> Result<Vars<'a>, Fault> {
        let count = self.byte()? as usize;
        if count > 8 {
            return Err(Fault::Count);
        }
        Ok(Vars(self.take(4 * count)?))
    }

    fn offer(&mut self) -> Result<OfferFrame<'a>, Fault> {
        let comp = self.u16()?;
        let number = self.positive()?;
        let ports = self.u16()?;
        Ok(OfferFrame { number, vars: self.values()?, comp, ports })
    }

    fn reserve(&mut self) -> Result<ReserveFrame<'a>, Fault> {
        let class = self.u16()?;
        let request = self.positive()?;
        let inter = self.u16()?;
        Ok(ReserveFrame { request, entries: self.entries()?, class, inter })
    }

    fn entries(&mut self) -> Result<&'a [u8], Fault> {
        let count = self.byte()?;
        if count == 0 || count > 32 {
            return Err(Fault::Count);
        }
        let whole = self.0;
        let mut moved = false;
        let mut last = None;
        for _ in 0..count {
            let comp = self.u16()?;
            if last.is_some_and(|last| comp <= last) {
                return Err(Fault::Order);
            }
            last = Some(comp);
            match self.byte()? {
                0 => {}
                1 => moved = true,
                _ => return Err(Fault::Role),
            }
            self.positive()?;
        }
        if !moved {
            return Err(Fault::NoMover);
        }
        Ok(&whole[..11 * count as usize])
    }

    fn granted(&mut self) -> Result<Reply, Fault> {
        let class = self.u16()?;
        let request = self.positive()?;
        let inter = self.u16()?;
        Ok(Reply::Granted { class, request, inter, serial: self.u64()? })
    }

    fn refused(&mut self) -> Result<Reply, Fault> {
        let class = self.u16()?;
        let request = self.positive()?;
        let inter = self.u16()?;
        let comp = self.u16()?;
        Ok(Reply::Refused { class, request, inter, comp, used: self.positive()? })
    }

    fn notify(&mut self) -> Result<NotifyFrame<'a>, Fault> {
        let comp = self.u16()?;
        let number = self.positive()?;
        let port = self.byte()?;
        if port > 15 {
            return Err(Fault::PortNo);
        }
        Ok(NotifyFrame { number, vars: self.values()?, comp, port })
    }
}

fn read(bytes: &[u8]) -> Result<Frame<'_>, Fault> {
    let mut reader = Reader(bytes);
    let frame = match reader.byte()? {
        1 => Frame::Offer(reader.offer()?),
        2 => Frame::Reserve(reader.reserve()?),
        3 => Frame::Reply(reader.granted()?),
        4 => Frame::Reply(reader.refused()?),
        5 => Frame::Notify(reader.notify()?),
        _ => return Err(Fault::Kind),
    };
    if !reader.0.is_empty() {
        return Err(Fault::Long);
    }
    Ok(frame)
}

fn put_values(out: &mut Vec<u8>, values: &[u32]) {
    out.push(values.len() as u8);
    for value in values {
        out.extend_from_slice(&value.to_be_bytes());
    }
}

fn put_head(out: &mut Vec<u8>, class: u16, request: u64, inter: u16) {
    out.extend_from_slice(&class.to_be_bytes());
    out.extend_from_slice(&request.to_be_bytes());
    out.extend_from_slice(&inter.to_be_bytes());
}

fn write_offer(offer: &Offer) -> Arc<[u8]> {
    let values = offer.values.as_slice();
    let mut out = Vec::with_capacity(14 + 4 * values.len());
    out.push(1);
    out.extend_from_slice(&offer.comp.to_be_bytes());
    out.extend_from_slice(&offer.number.to_be_bytes());
    out.extend_from_slice(&offer.ports.to_be_bytes());
    put_values(&mut out, values);
    out.into()
}

fn write_reserve(request: &Request) -> Arc<[u8]> {
    let wants = request.wants.as_slice();
    let mut out = Vec::with_capacity(14 + 11 * wants.len());
    out.push(2);
    put_head(&mut out, request.class, request.request, request.inter);
    out.push(wants.len() as u8);
    for want in wants {
        out.extend_from_slice(&want.comp.to_be_bytes());
        out.push((want.role == Role::Moved) as u8);
        out.extend_from_slice(&want.number.to_be_bytes());
    }
    out.into()
}

fn write_reply(reply: &Reply) -> Arc<[u8]> {
    let mut out = Vec::with_capacity(23);
    match *reply {
        Reply::Granted { class, request, inter, serial } => {
            out.push(3);
            put_head(&mut out, class, request, inter);
            out.extend_from_slice(&serial.to_be_bytes());
        }
        Reply::Refused { class, request, inter, comp, used } => {
            out.push(4);
            put_head(&mut out, class, request, inter);
            out.extend_from_slice(&comp.to_be_bytes());
            out.extend_from_slice(&used.to_be_bytes());
        }
    }
    out.into()
}

fn write_notify(notify: &Notify) -> Arc<[u8]> {
    let values = notify.values.as_slice();
    let mut out = Vec::with_capacity(13 + 4 * values.len());
    out.push(5);
    out.extend_from_slice(&notify.comp.to_be_bytes());
    out.extend_from_slice(&notify.number.to_be_bytes());
    out.push(notify.port);
    put_values(&mut out, values);
    out.into()
}

const FRAMES: u64 = 1000;

fn make_message(kind: &str, parts: usize, number: u64) -> Option<Message> {
    let word = (number % 1000) as u32;
    let values = || Values::of(&[word, 1, word, 3, word, 5, word, 7][..parts.min(8)]);
    let role = |place| if place == 0 { Role::Moved } else { Role::Seen };
    let want = |place| Want { number, comp: place as u16, role: role(place) };
    Some(match kind {
        "offer" => Message::Offer(Offer { number, values: values(), comp: 2, ports: 1 }),
        "request" => {
            let wants: Vec<Want> = (0..parts).map(want).collect();
            let wants = Wants::of(&wants);
            Message::Request(Request { wants, request: number, class: 1, inter: 3 })
        }
        "granted" => {
            Message::Reply(Reply::Granted { class: 1, request: number, inter: 3, serial: 5 })
        }
        "refused" => {
            let (comp, used) = (2, number);
            Message::Reply(Reply::Refused { class: 1, request: number, inter: 3, comp, used })
        }
        "notify" => Message::Notify(Notify { number, values: values(), comp: 2, port: 4 }),
        _ => return None,
    })
}

fn written(message: &Message) -> Arc<[u8]> {
    match message {
        Message::Offer(offer) => write_offer(offer),
        Message::Request(request) => write_reserve(request),
        Message::Reply(reply) => write_reply(reply),
        Message::Notify(notify) => write_notify(notify),
    }
}

fn sum_of(vars: Vars) -> u64 {
    (0..8).map_while(|i| vars.get(i)).fold(0, |sum, value| sum.wrapping_add(value as u64))
}

fn shown(frame: &Frame) -> u64 {
    match frame {
        Frame::Offer(offer) => {
            let fields = offer.comp as u64 + offer.ports as u64;
            offer.number.wrapping_add(fields).wrapping_add(sum_of(offer.vars))
        }
        Frame::Reserve(request) => {
            let head = request.class as u64 + request.inter as u64;
            let mut sum = request.request.wrapping_add(head);
            for i in 0..32 {
                let Some(want) = request.entry(i) else { break };
                let moved = want.comp as u64 + (want.role == Role::Moved) as u64;
                sum = sum.wrapping_add(want.number).wrapping_add(moved);
            }
            sum
        }
        Frame::Reply(Reply::Granted { request, serial, .. }) => request.wrapping_add(*serial),
        Frame::Reply(Reply::Refused { comp, used, .. }) => used.wrapping_add(*comp as u64),
        Frame::Notify(notify) => {
            let fields = notify.comp as u64 + notify.port as u64;
            notify.number.wrapping_add(fields).wrapping_add(sum_of(notify.vars))
        }
    }
}

fn numbered(frame: &Frame) -> u64 {
    match frame {
        Frame::Offer(offer) => offer.number,
        Frame::Reserve(request) => request.request,
        Frame::Reply(Reply::Granted { request, .. } | Reply::Refused { request, .. }) => *request,
        Frame::Notify(notify) => notify.number,
    }
}

fn add_all(frames: &[u8], len: usize, of: impl Fn(&Frame) -> u64) -> u64 {
    let mut sum: u64 = 0;
    for bytes in frames.chunks_exact(len) {
        if let Ok(frame) = read(bytes) {
            sum = sum.wrapping_add(of(&frame));
        }
    }
    sum
}

fn write_all(messages: &[Message]) -> u64 {
    let mut sum: u64 = 0;
    for message in messages {
        sum = sum.wrapping_add(written(message).last().copied().unwrap_or(0) as u64);
    }
    sum
}

fn copy_all(copy: &mut [u8], frames: &[u8]) -> u64 {
    copy.copy_from_slice(frames);
    copy.last().copied().unwrap_or(0) as u64
}

fn main() {
    let words: Vec<String> = std::env::args().collect();
    let number = |place: usize| words.get(place).and_then(|w| w.parse::<u32>().ok()).unwrap_or(0);
    let parts = number(3) as usize;
    let messages: Vec<Message> =
        (1..=FRAMES).filter_map(|number| make_message(&words[2], parts, number)).collect();
    let frames: Vec<u8> = messages.iter().flat_map(|it| written(it).to_vec()).collect();
    let len = frames.len() / messages.len();
    let mut copy = frames.clone();
    let mut sum: u64 = 0;
    for _ in 0..number(4) {
        sum = sum.wrapping_add(match words[1].as_str() {
            "read" => add_all(&frames, len, numbered),
            "show" => add_all(&frames, len, shown),
            "write" => write_all(&messages),
            "copy" => copy_all(&mut copy, &frames),
            _ => 0,
        });
    }
    println!("{len} {sum}");
}
