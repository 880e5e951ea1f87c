//! The calls of the book in plain Rust: the same lent tables, checks, refusals and lines.

pub const PERIODS: usize = 48;
pub const PLACES: usize = 8;
const MAX_KWH: u32 = 9_999_999;
const FINAL: u8 = 2;

#[derive(Clone, Copy)]
pub struct Terms {
    pub places: u8,
    pub days: u16,
    pub capacity: u32,
}

#[derive(Clone, Copy)]
pub struct Row {
    pub method: u8,
    pub balance: u8,
    pub nominations: [u32; PLACES],
}

#[derive(Clone, Copy)]
pub struct Dated<T> {
    pub subject: u8,
    pub day: u16,
    pub entry: T,
}

#[derive(Clone, Copy, Default)]
pub struct Reading {
    pub quality: u8,
    pub kwh: u32,
}

#[derive(Clone, Copy, Default)]
pub struct Slot {
    pub supplier: u16,
    pub volume: i32,
}

#[derive(Clone, Copy, Default)]
pub struct Line {
    pub day: u16,
    pub period: u8,
    pub place: u8,
    pub supplier: u16,
    pub run: u8,
    pub volume: i32,
}

#[derive(Clone, Copy)]
pub struct Refusal {
    pub number: u8,
    pub spot: u64,
}

type Answer<T> = Result<T, Refusal>;

fn refuse<T>(number: u8, spot: impl Into<u64>) -> Answer<T> {
    Err(Refusal { number, spot: spot.into() })
}

fn admit(argument: u8, within: bool) -> Answer<()> {
    if within { Ok(()) } else { refuse(8, argument) }
}

impl Terms {
    fn fit_readings(&self, readings: &[Reading]) -> Answer<()> {
        if readings.len() == self.days as usize * PERIODS { Ok(()) } else { refuse(11, 3u8) }
    }

    fn fit_issued(&self, issued: &[Slot]) -> Answer<()> {
        if issued.len() == self.days as usize * PERIODS * self.places as usize {
            Ok(())
        } else {
            refuse(11, 4u8)
        }
    }
}

fn gate(day: u16) -> u32 {
    u32::from(day) * 1_440 + 1_380
}

impl Reading {
    fn is_spoiled(self) -> bool {
        self.quality > 2 || self.kwh > MAX_KWH
    }
}

impl Slot {
    fn is_spoiled(self) -> bool {
        self.volume.unsigned_abs() > MAX_KWH || self.supplier == 0 && self.volume != 0
    }
}

/// The index of the first entry of the subject and the day.
fn find<T>(entries: &[Dated<T>], subject: u8, day: u16) -> Option<usize> {
    entries.iter().position(|e| e.subject == subject && e.day == day)
}

/// The subject's entry of the latest day not after the given one, the first among equals.
fn in_force<T>(entries: &[Dated<T>], subject: u8, day: u16) -> Option<&T> {
    let mut best: Option<&Dated<T>> = None;
    for e in entries {
        if e.subject == subject && e.day <= day && best.is_none_or(|b| e.day > b.day) {
            best = Some(e);
        }
    }
    best.map(|b| &b.entry)
}

/// Of each half hour the index of its first entry of the day, in one pass.
fn find_each<T>(entries: &[Dated<T>], day: u16) -> [Option<usize>; PERIODS] {
    let mut found = [None; PERIODS];
    for (index, e) in entries.iter().enumerate() {
        if e.day == day && (1..=PERIODS as u8).contains(&e.subject) {
            let found = &mut found[e.subject as usize - 1];
            *found = found.or(Some(index));
        }
    }
    found
}

/// Of each half hour the entry of the latest day not after the given one, the first among equals, in one pass.
fn in_force_each<T>(entries: &[Dated<T>], day: u16) -> [Option<&T>; PERIODS] {
    let mut best: [Option<&Dated<T>>; PERIODS] = [None; PERIODS];
    for e in entries {
        if e.day <= day && (1..=PERIODS as u8).contains(&e.subject) {
            let best = &mut best[e.subject as usize - 1];
            if best.is_none_or(|b| e.day > b.day) {
                *best = Some(e);
            }
        }
    }
    best.map(|best| best.map(|b| &b.entry))
}

/// Whether the house rule allows the nominations of a book's places.
fn is_lawful(method: u8, capacity: u32, nominations: &[u32], balance: usize) -> bool {
    match method {
        1 => is_pair(nominations, balance, 10_000),
        2 => is_pair(nominations, balance, MAX_KWH),
        3 => is_blocks(nominations, balance, capacity, 2, 2),
        4 => is_blocks(nominations, balance, capacity, 3, 8),
        5 => has_first(nominations, balance) && is_lawful(1, capacity, &nominations[1..], balance - 1),
        6 => has_first(nominations, balance) && is_lawful(4, capacity, &nominations[1..], balance - 1),
        7 => has_first(nominations, balance) && is_lawful(5, capacity, &nominations[1..], balance - 1),
        _ => false,
    }
}

fn is_pair(nominations: &[u32], balance: usize, most: u32) -> bool {
    matches!(nominations, [first, 0] if balance == 1 && *first <= most)
}

fn is_blocks(nominations: &[u32], balance: usize, capacity: u32, least: usize, most: usize) -> bool {
    let places = nominations.len();
    (least..=most).contains(&places)
        && balance < places
        && nominations[balance] == 0
        && nominations.iter().all(|n| *n <= MAX_KWH)
        && nominations.iter().map(|n| u64::from(*n)).sum::<u64>() <= u64::from(capacity)
}

fn has_first(nominations: &[u32], balance: usize) -> bool {
    nominations.len() >= 3 && balance >= 1 && nominations[0] <= MAX_KWH
}

/// What each place has of the energy, for a lawful row.
fn split(method: u8, nominations: &[u32], balance: usize, period: u8, energy: u32, shares: &mut [i32]) {
    match method {
        1 => {
            let exact = u64::from(nominations[0]) * u64::from(energy);
            let rest = exact % 10_000;
            let up = rest > 5_000 || rest == 5_000 && period % 2 == 1;
            let first = (exact / 10_000) as u32 + u32::from(up);
            shares[0] = first as i32;
            shares[1] = (energy - first) as i32;
        }
        2 => {
            let first = nominations[0].min(energy);
            shares[0] = first as i32;
            shares[1] = (energy - first) as i32;
        }
        3 | 4 => {
            let mut total = 0;
            for (share, nomination) in shares.iter_mut().zip(nominations) {
                *share = *nomination as i32;
                total += *nomination as i32;
            }
            shares[balance] = energy as i32 - total;
        }
        _ => {
            let below = match method {
                5 => 1,
                6 => 4,
                _ => 5,
            };
            let first = nominations[0].min(energy);
            shares[0] = first as i32;
            split(below, &nominations[1..], balance - 1, period, energy - first, &mut shares[1..]);
        }
    }
}

impl Row {
    fn is_allowed(&self, terms: Terms) -> bool {
        let (places, rest) = self.nominations.split_at(terms.places as usize);
        is_lawful(self.method, terms.capacity, places, self.balance as usize) && rest.iter().all(|n| *n == 0)
    }
}

fn shares(row: Option<&Row>, terms: Terms, period: u8, energy: u32) -> [i32; PLACES] {
    let mut shares = [0; PLACES];
    let places = terms.places as usize;
    match row {
        Some(row) => split(
            row.method,
            &row.nominations[..places],
            row.balance as usize,
            period,
            energy,
            &mut shares[..places],
        ),
        None => shares[0] = energy as i32,
    }
    shares
}

pub struct Book {
    terms: Terms,
    holders: usize,
    rows: usize,
    lines: usize,
    ended: Option<u16>,
    closed: Vec<bool>,
}

impl Book {
    pub fn open(terms: Terms) -> Book {
        Book { terms, holders: 0, rows: 0, lines: 0, ended: None, closed: vec![false; terms.days as usize] }
    }

    pub fn register(&mut self, holders: &mut [Dated<u16>], place: u8, day: u16, supplier: u16) -> Answer<()> {
        admit(1, place < self.terms.places)?;
        admit(2, day < self.terms.days)?;
        admit(3, supplier >= 1)?;
        if self.holders > holders.len() {
            return refuse(13, 1u8);
        }
        let at = find(&holders[..self.holders], place, day);
        let needed = self.holders + usize::from(at.is_none());
        if needed > holders.len() {
            return refuse(21, needed as u64);
        }
        holders[at.unwrap_or(self.holders)] = Dated { subject: place, day, entry: supplier };
        self.holders = needed;
        Ok(())
    }

    fn primary(&self, holders: &[Dated<u16>], day: u16) -> Answer<Option<u16>> {
        if self.holders > holders.len() {
            return refuse(13, 1u8);
        }
        match in_force(&holders[..self.holders], 0, day) {
            Some(0) => refuse(13, 1u8),
            holder => Ok(holder.copied()),
        }
    }

    pub fn schedule(
        &mut self,
        holders: &[Dated<u16>],
        rows: &mut [Dated<Row>],
        sender: u16,
        day: u16,
        moment: u32,
        schedule: &[Row],
    ) -> Answer<[u8; 16]> {
        admit(1, sender >= 1)?;
        admit(2, day < self.terms.days)?;
        admit(4, schedule.len() == PERIODS)?;
        if let Some(i) = schedule.iter().position(|row| !row.is_allowed(self.terms)) {
            return refuse(9, i as u64 + 1);
        }
        if moment > gate(day) {
            return refuse(10, gate(day));
        }
        let primary = self.primary(holders, day)?;
        if self.rows > rows.len() {
            return refuse(13, 2u8);
        }
        if primary != Some(sender) {
            return refuse(14, day);
        }
        if let Some(end) = self.ended.filter(|end| day >= *end) {
            return refuse(15, end);
        }
        self.put_rows(rows, day, schedule)?;
        Ok(notice(day, sender, moment))
    }

    fn put_rows(&mut self, rows: &mut [Dated<Row>], day: u16, schedule: &[Row]) -> Answer<()> {
        let at = find_each(&rows[..self.rows], day);
        let needed = self.rows + at.iter().filter(|at| at.is_none()).count();
        if needed > rows.len() {
            return refuse(21, needed as u64);
        }
        for (i, (row, at)) in schedule.iter().zip(at).enumerate() {
            let at = at.unwrap_or_else(|| {
                self.rows += 1;
                self.rows - 1
            });
            rows[at] = Dated { subject: i as u8 + 1, day, entry: *row };
        }
        Ok(())
    }

    pub fn reading(&self, readings: &mut [Reading], day: u16, period: u8, quality: u8, kwh: u32) -> Answer<()> {
        admit(1, day < self.terms.days)?;
        admit(2, (1..=PERIODS as u8).contains(&period))?;
        admit(3, quality == 1 || quality == 2)?;
        admit(4, kwh <= MAX_KWH)?;
        self.terms.fit_readings(readings)?;
        let slot = &mut readings[day as usize * PERIODS + period as usize - 1];
        if slot.is_spoiled() {
            return refuse(13, 3u8);
        }
        if self.closed[day as usize] {
            return refuse(16, day);
        }
        if quality == 1 && slot.quality == 2 {
            return refuse(17, period);
        }
        *slot = Reading { quality, kwh };
        Ok(())
    }

    pub fn end(&mut self, holders: &[Dated<u16>], sender: u16, day: u16, moment: u32) -> Answer<()> {
        admit(1, sender >= 1)?;
        admit(2, day < self.terms.days)?;
        if moment > gate(day) {
            return refuse(10, gate(day));
        }
        if self.primary(holders, day)? != Some(sender) {
            return refuse(14, day);
        }
        if let Some(end) = self.ended {
            return refuse(15, end);
        }
        self.ended = Some(day);
        Ok(())
    }

    /// Who holds each place on a day, 0 for nobody.
    fn suppliers(&self, holders: &[Dated<u16>], ended: bool, day: u16) -> Answer<[u16; PLACES]> {
        if self.holders > holders.len() {
            return refuse(13, 1u8);
        }
        let mut suppliers = [0; PLACES];
        let places = if ended { 1 } else { self.terms.places };
        for place in 0..places {
            match in_force(&holders[..self.holders], place, day) {
                Some(0) => return refuse(13, 1u8),
                Some(supplier) => suppliers[place as usize] = *supplier,
                None => {}
            }
        }
        Ok(suppliers)
    }

    /// The row of each half hour of a day.
    fn rows_in_force<'a>(&self, rows: &'a [Dated<Row>], ended: bool, day: u16) -> Answer<[Option<&'a Row>; PERIODS]> {
        if self.rows > rows.len() {
            return refuse(13, 2u8);
        }
        if ended {
            return Ok([None; PERIODS]);
        }
        let found = in_force_each(&rows[..self.rows], day);
        if found.iter().flatten().any(|row| !row.is_allowed(self.terms)) {
            return refuse(13, 2u8);
        }
        Ok(found)
    }

    pub fn issue(
        &mut self,
        holders: &[Dated<u16>],
        rows: &[Dated<Row>],
        readings: &[Reading],
        issued: &mut [Slot],
        journal: &mut [Line],
        day: u16,
        run: u8,
    ) -> Answer<usize> {
        admit(1, day < self.terms.days)?;
        admit(2, run == 1 || run == 2)?;
        self.terms.fit_readings(readings)?;
        self.terms.fit_issued(issued)?;
        let ended = self.ended.is_some_and(|end| end <= day);
        let suppliers = self.suppliers(holders, ended, day)?;
        let rows = self.rows_in_force(rows, ended, day)?;
        let places = self.terms.places as usize;
        let first = day as usize * PERIODS;
        let readings = &readings[first..first + PERIODS];
        let issued = &mut issued[first * places..(first + PERIODS) * places];
        self.admit_day(readings, issued, journal, day, ended, &suppliers)?;

        let mut lines = Vec::with_capacity(issued.len());
        let mut next = Vec::with_capacity(issued.len());
        for (i, (reading, was)) in readings.iter().zip(issued.chunks_exact(places)).enumerate() {
            let period = i as u8 + 1;
            let shares = shares(rows[i], self.terms, period, reading.kwh);
            for (place, was) in was.iter().enumerate() {
                let slot = Slot { supplier: suppliers[place], volume: shares[place] };
                let line = |supplier, volume| Line { day, period, place: place as u8, supplier, run, volume };
                if was.supplier == slot.supplier {
                    push(&mut lines, line(slot.supplier, slot.volume - was.volume));
                } else {
                    push(&mut lines, line(was.supplier, -was.volume));
                    push(&mut lines, line(slot.supplier, slot.volume));
                }
                next.push(slot);
            }
        }
        let needed = self.lines + lines.len();
        if needed > journal.len() {
            return refuse(20, needed as u64);
        }
        journal[self.lines..needed].copy_from_slice(&lines);
        issued.copy_from_slice(&next);
        self.lines = needed;
        if run == FINAL {
            self.closed[day as usize] = true;
        }
        Ok(lines.len())
    }

    fn admit_day(
        &self,
        readings: &[Reading],
        issued: &[Slot],
        journal: &[Line],
        day: u16,
        ended: bool,
        suppliers: &[u16; PLACES],
    ) -> Answer<()> {
        if readings.iter().any(|reading| reading.is_spoiled()) {
            return refuse(13, 3u8);
        }
        if issued.iter().any(|slot| slot.is_spoiled()) {
            return refuse(13, 4u8);
        }
        if self.lines > journal.len() {
            return refuse(13, 5u8);
        }
        if self.closed[day as usize] {
            return refuse(16, day);
        }
        if let Some(i) = readings.iter().position(|reading| reading.quality == 0) {
            return refuse(18, i as u64 + 1);
        }
        let needing = if ended { 1 } else { self.terms.places as usize };
        if let Some(place) = suppliers[..needing].iter().position(|supplier| *supplier == 0) {
            return refuse(19, place as u64);
        }
        Ok(())
    }
}

/// Lines of 0 are not sent.
fn push(lines: &mut Vec<Line>, line: Line) {
    if line.volume != 0 {
        lines.push(line);
    }
}

/// The notice that a schedule was accepted: header, day, sender, moment.
fn notice(day: u16, sender: u16, moment: u32) -> [u8; 16] {
    let mut notice = [0; 16];
    notice[..8].copy_from_slice(&[0x53, 0x53, 0x4d, 0, 1, 4, 0, 1]);
    notice[8..10].copy_from_slice(&day.to_be_bytes());
    notice[10..12].copy_from_slice(&sender.to_be_bytes());
    notice[12..].copy_from_slice(&moment.to_be_bytes());
    notice
}

fn row(bytes: &[u8]) -> Row {
    let mut nominations = [0; PLACES];
    for (nomination, bytes) in nominations.iter_mut().zip(bytes[2..].chunks_exact(4)) {
        *nomination = u32::from_be_bytes([bytes[0], bytes[1], bytes[2], bytes[3]]);
    }
    Row { method: bytes[0], balance: bytes[1], nominations }
}

fn put(out: &mut [u8], at: usize, bytes: &[u8]) -> usize {
    let end = at + bytes.len();
    if end <= out.len() {
        out[at..end].copy_from_slice(bytes);
    }
    end
}

fn put_answer<T>(out: &mut [u8], at: usize, answer: Answer<T>, accepted: impl Fn(&mut [u8], usize, T) -> usize) -> usize {
    match answer {
        Ok(value) => accepted(out, at, value),
        Err(refusal) => {
            let at = put(out, at, &[3, refusal.number]);
            put(out, at, &refusal.spot.to_be_bytes())
        }
    }
}

fn put_line(out: &mut [u8], at: usize, line: &Line) -> usize {
    let [d1, d0] = line.day.to_be_bytes();
    let [s1, s0] = line.supplier.to_be_bytes();
    let [v3, v2, v1, v0] = line.volume.to_be_bytes();
    put(out, at, &[d1, d0, line.period, line.place, s1, s0, line.run, v3, v2, v1, v0])
}

/// Decodes and makes the calls, and encodes what came of each and all lines, as the library's boundary does.
/// The name is for the profiler, which counts inside it.
#[inline(never)]
#[unsafe(no_mangle)]
pub extern "C" fn plain_run(season: &crate::input::Season, out: &mut [u8; crate::OUTPUT]) -> usize {
    let terms = season.terms;
    let schedules: Vec<Row> = season.schedules.chunks_exact(34).map(row).collect();
    let half_hours = terms.days as usize * PERIODS;
    let blank = Row { method: 0, balance: 0, nominations: [0; PLACES] };
    let mut holders = vec![Dated { subject: 0, day: 0, entry: 0 }; terms.places as usize * terms.days as usize];
    let mut rows = vec![Dated { subject: 0, day: 0, entry: blank }; half_hours];
    let mut readings = vec![Reading::default(); half_hours];
    let mut issued = vec![Slot::default(); half_hours * terms.places as usize];
    let mut journal = vec![Line::default(); season.lines];
    let mut book = Book::open(terms);
    let mut at = 0;
    let done = |out: &mut [u8], at, ()| put(out, at, &[0]);
    for record in season.calls.chunks_exact(12) {
        let &[kind, small, p1, p0, d1, d0, s1, s0, n3, n2, n1, n0] = record else {
            return 0;
        };
        let party = u16::from_be_bytes([p1, p0]);
        let day = u16::from_be_bytes([d1, d0]);
        let number = u32::from_be_bytes([n3, n2, n1, n0]);
        at = match kind {
            0 => put_answer(out, at, book.register(&mut holders, small, day, party), done),
            1 => {
                let from = usize::from(u16::from_be_bytes([s1, s0])) * PERIODS;
                let schedule = schedules.get(from..from + PERIODS).unwrap_or(&[]);
                let answer = book.schedule(&holders, &mut rows, party, day, number, schedule);
                put_answer(out, at, answer, |out, at, notice| {
                    let at = put(out, at, &[1]);
                    put(out, at, &notice)
                })
            }
            2 => put_answer(out, at, book.reading(&mut readings, day, small, p0, number), done),
            3 => put_answer(out, at, book.end(&holders, party, day, number), done),
            4 => {
                let answer = book.issue(&holders, &rows, &readings, &mut issued, &mut journal, day, small);
                put_answer(out, at, answer, |out, at, lines| {
                    let at = put(out, at, &[2]);
                    put(out, at, &(lines as u64).to_be_bytes())
                })
            }
            _ => return 0,
        };
    }
    for line in &journal[..book.lines] {
        at = put_line(out, at, line);
    }
    at
}
