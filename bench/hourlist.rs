//! Lists an hour file: reads it from standard input and prints the listing of the settled hour, or the line of its
//! first fault. Follows docs/hour-file.md and the pages that it names. The listing has no output buffer of a fixed
//! length, so there is no fault 13.

use std::fmt::{self, Write as _};
use std::io::{self, Read, Write as _};

const MOST_BYTES: usize = 65_536;

const MOST_PLANTS: usize = 32;
const MOST_UNITS: usize = 128;
const MOST_BUYERS: usize = 64;
const MOST_COMMITMENTS: usize = 768;
const MOST_STEPS: usize = 10;

const MOST_ENERGY: u64 = 2_000_000;
const MOST_USE: u64 = 50_000_000;
const MOST_COMMITTED: u64 = 20_000_000;
const MOST_PRICE: u64 = 10_000_000;
const MOST_CPF: u64 = 50_000;
const MOST_BAR: u64 = 1_000_000;
const MOST_ADJUSTMENT: u64 = 100_000_000;
const MOST_PERCENTAGE: u64 = 2_000;
const MOST_RATE: u64 = 1_000_000_000;
const MOST_DAY: u64 = 400;
const MOST_MINUTE: u64 = 1_439;

/// 100 percent, in hundredths of a percent.
const WHOLE: u64 = 10_000;

// Faults --------------------------------------------------------------------------------------------------------------

#[derive(Clone, Copy)]
enum Layer {
    File,
    Book,
    Steps,
}

/// What is wrong with a record.
#[derive(Clone, Copy)]
struct Refusal {
    layer: Layer,
    number: u32,
}

const fn file(number: u32) -> Refusal {
    Refusal { layer: Layer::File, number }
}

const fn book(number: u32) -> Refusal {
    Refusal { layer: Layer::Book, number }
}

const fn steps(number: u32) -> Refusal {
    Refusal { layer: Layer::Steps, number }
}

struct Fault {
    refusal: Refusal,
    place: usize,
}

impl fmt::Display for Fault {
    fn fmt(&self, f: &mut fmt::Formatter) -> fmt::Result {
        let layer = match self.refusal.layer {
            Layer::File => 'F',
            Layer::Book => 'B',
            Layer::Steps => 'O',
        };
        writeln!(f, "R {} {} {}", layer, self.refusal.number, self.place)
    }
}

fn refuse_if(condition: bool, refusal: Refusal) -> Result<(), Refusal> {
    if condition {
        Err(refusal)
    } else {
        Ok(())
    }
}

// Curves --------------------------------------------------------------------------------------------------------------

#[derive(Clone, Copy)]
struct Step {
    width: u64,
    price: u64,
}

/// A stepped price curve. Past the last step its price goes on.
struct Curve {
    steps: Vec<Step>,
}

impl Curve {
    /// The steps as kWh `from` (not counted) to `to` go through them: how many kWh of each, and their price.
    fn pieces(&self, from: u64, to: u64) -> impl Iterator<Item = Step> + '_ {
        let last = self.steps.len() - 1;
        let mut start = 0;
        self.steps.iter().enumerate().map_while(move |(place, step)| {
            if start >= to {
                return None;
            }
            let end = if place == last { to } else { to.min(start + step.width) };
            let width = end.saturating_sub(from.max(start));
            start = end;
            Some(Step { width, price: step.price })
        })
    }

    /// The cost of kWh `from + 1` to `to`, each at what `priced` makes of its price.
    fn cost_by(&self, from: u64, to: u64, priced: impl Fn(u64) -> u64) -> u64 {
        self.pieces(from, to).map(|piece| piece.width * priced(piece.price)).sum()
    }

    fn cost(&self, from: u64, to: u64) -> u64 {
        self.cost_by(from, to, |price| price)
    }

    /// The price of kWh `kwh`, from 1 on.
    fn price(&self, kwh: u64) -> u64 {
        let mut end = 0;
        for step in &self.steps {
            end += step.width;
            if kwh <= end {
                return step.price;
            }
        }
        self.steps[self.steps.len() - 1].price
    }
}

// The hour ------------------------------------------------------------------------------------------------------------

struct Header {
    ceiling: u64,
    cpf: u64,
    bar: u64,
    saving: u64,
    rate: u64,
}

#[derive(Default)]
struct Plant {
    loss: u64,
    committed: u64,
    declared: [u64; 2],
    offered: [Vec<Offered>; 2],
    run_support: u64,
    allocated: u64,
    active: u64,
    bill: u64,
    payment: u64,
}

/// A step of a unit's offer within the unit's limit.
struct Offered {
    unit: usize,
    width: u64,
    price: u64,
}

impl Plant {
    fn at_reference(&self, energy: u64) -> u64 {
        energy * (WHOLE - self.loss) / WHOLE
    }

    fn net(&self, gross: u64, rho: u64) -> u64 {
        gross * (WHOLE - rho) * (WHOLE - self.loss) / (WHOLE * WHOLE)
    }
}

/// What an hour knows of a unit of either group.
struct Unit {
    plant: usize,
    gross: u64,
    rho: u64,
    aside: bool,
    allocated: u64,
    bill: u64,
    payment: u64,
}

impl Unit {
    fn new(plant: usize, gross: u64, rho: u64) -> Unit {
        Unit { plant, gross, rho, aside: false, allocated: 0, bill: 0, payment: 0 }
    }
}

struct Competitive {
    unit: Unit,
    offer: Curve,
    cost: Curve,
    reading: CompetitiveReading,
}

struct Guaranteed {
    unit: Unit,
    seasonal: u64,
    feeds: bool,
    reading: GuaranteedReading,
}

struct Buyer {
    loss: u64,
    committed: u64,
    used: u64,
}

/// The control part of a unit's reading: energies in kWh, the maintenance day and the exit minute.
#[derive(Default)]
struct Control {
    active: u64,
    /// Deviations of types 2, 3, 5, 6 and 8.
    deviations: [u64; 5],
    day: u64,
    minute: u64,
}

impl Control {
    fn of(values: &[u64]) -> Control {
        Control {
            active: values[0],
            deviations: [values[1], values[2], values[3], values[4], values[5]],
            day: values[6],
            minute: values[7],
        }
    }

    fn energy(&self) -> u64 {
        let [two, three, five, six, eight] = self.deviations;
        let marked = self.day == 1 || self.day == 2 && self.minute > 780;
        self.active + two + three + five + eight + if marked { 0 } else { six }
    }
}

#[derive(Default)]
struct CompetitiveReading {
    net: u64,
    accepted: u64,
    lost: u64,
    limited: u64,
    executed: u64,
    asked: bool,
    control: Control,
    opportunity: u64,
    planning: u64,
    cooperation: u64,
}

#[derive(Default)]
struct GuaranteedReading {
    net: u64,
    control: Control,
}

enum Stage {
    Start,
    Open,
    Closed,
    Settled,
}

struct Hour {
    stage: Stage,
    header: Header,
    plants: Vec<Plant>,
    competitive: Vec<Competitive>,
    guaranteed: Vec<Guaranteed>,
    buyers: Vec<Buyer>,
    commitments: usize,
}

/// The place of row `number` in a table of so many rows, if it is there.
fn place_of(number: u64, rows: usize) -> Option<usize> {
    (1..=rows as u64).contains(&number).then(|| number as usize - 1)
}

/// The steps of a list of widths and prices.
fn curve(values: &[u64]) -> Curve {
    Curve { steps: values.chunks_exact(2).map(|pair| Step { width: pair[0], price: pair[1] }).collect() }
}

/// Whether the number of steps and each width are within their limits.
fn is_stepped(values: &[u64]) -> bool {
    (1..=MOST_STEPS).contains(&(values.len() / 2))
        && values.iter().step_by(2).all(|width| (1..=MOST_ENERGY).contains(width))
}

fn prices(values: &[u64]) -> impl Iterator<Item = u64> + Clone + '_ {
    values.iter().skip(1).step_by(2).copied()
}

fn falls(values: &[u64]) -> bool {
    prices(values).zip(prices(values).skip(1)).any(|(price, next)| next < price)
}

fn over(most: u64, values: &[u64]) -> bool {
    values.iter().any(|&value| value > most)
}

impl Hour {
    fn new() -> Hour {
        Hour {
            stage: Stage::Start,
            header: Header { ceiling: 0, cpf: 0, bar: 0, saving: 0, rate: 0 },
            plants: Vec::new(),
            competitive: Vec::new(),
            guaranteed: Vec::new(),
            buyers: Vec::new(),
            commitments: 0,
        }
    }

    // The calls

    /// Makes the call of a record of this kind.
    fn call(&mut self, kind: u64, values: &[u64]) -> Result<(), Refusal> {
        match (&self.stage, kind) {
            (Stage::Start, 1) => self.open(values),
            (Stage::Open, 2) => self.add_plant(values),
            (Stage::Open, 3) => self.add_competitive(values),
            (Stage::Open, 4) => self.add_guaranteed(values),
            (Stage::Open, 5) => self.add_buyer(values),
            (Stage::Open, 6) => self.commit(values),
            (Stage::Open, 7) => self.correct(values),
            (Stage::Open, 8) => self.set_aside(values, true),
            (Stage::Open, 9) => self.set_aside(values, false),
            (Stage::Open, 10) => {
                self.close();
                Ok(())
            }
            (Stage::Closed, 11) => self.read_competitive(values),
            (Stage::Closed, 12) => self.read_guaranteed(values),
            (Stage::Closed, 13) => self.read_buyer(values),
            (Stage::Closed, 14) => {
                self.settle();
                Ok(())
            }
            _ => Err(file(16)),
        }
    }

    fn open(&mut self, values: &[u64]) -> Result<(), Refusal> {
        let header = Header { ceiling: values[0], cpf: values[1], bar: values[2], saving: values[3], rate: values[4] };
        let too_high = over(MOST_PRICE, &[header.ceiling, header.saving, header.rate])
            || header.cpf > MOST_CPF
            || header.bar > MOST_BAR;
        refuse_if(too_high, book(9))?;
        self.header = header;
        self.stage = Stage::Open;
        Ok(())
    }

    fn add_plant(&mut self, values: &[u64]) -> Result<(), Refusal> {
        let loss = values[0];
        refuse_if(self.plants.len() == MOST_PLANTS, book(4))?;
        refuse_if(loss > MOST_PERCENTAGE, book(5))?;
        self.plants.push(Plant { loss, ..Plant::default() });
        Ok(())
    }

    fn add_competitive(&mut self, values: &[u64]) -> Result<(), Refusal> {
        let (gross, rho, count) = (values[1], values[2], values[3] as usize);
        let (offer, cost) = values[4..].split_at(2 * count);
        let plant = place_of(values[0], self.plants.len()).ok_or(book(1))?;
        refuse_if(self.competitive.len() == MOST_UNITS, book(4))?;
        refuse_if(rho > MOST_PERCENTAGE, book(5))?;
        refuse_if(gross > MOST_ENERGY, book(6))?;
        refuse_if(!is_stepped(offer) || !is_stepped(cost) || falls(offer), steps(8))?;
        refuse_if(prices(offer).chain(prices(cost)).any(|price| price > MOST_PRICE), steps(9))?;
        self.competitive.push(Competitive {
            unit: Unit::new(plant, gross, rho),
            offer: curve(offer),
            cost: curve(cost),
            reading: CompetitiveReading::default(),
        });
        Ok(())
    }

    fn add_guaranteed(&mut self, values: &[u64]) -> Result<(), Refusal> {
        let (gross, seasonal, rho, beta) = (values[1], values[2], values[3], values[4]);
        let plant = place_of(values[0], self.plants.len()).ok_or(book(1))?;
        refuse_if(self.guaranteed.len() == MOST_UNITS, book(4))?;
        refuse_if(rho > MOST_PERCENTAGE, book(5))?;
        refuse_if(over(MOST_ENERGY, &[gross, seasonal]), book(6))?;
        refuse_if(beta > 1, book(10))?;
        self.guaranteed.push(Guaranteed {
            unit: Unit::new(plant, gross, rho),
            seasonal,
            feeds: beta == 1,
            reading: GuaranteedReading::default(),
        });
        Ok(())
    }

    fn add_buyer(&mut self, values: &[u64]) -> Result<(), Refusal> {
        let loss = values[0];
        refuse_if(self.buyers.len() == MOST_BUYERS, book(4))?;
        refuse_if(loss > MOST_PERCENTAGE, book(5))?;
        self.buyers.push(Buyer { loss, committed: 0, used: 0 });
        Ok(())
    }

    fn commit(&mut self, values: &[u64]) -> Result<(), Refusal> {
        let plant = place_of(values[0], self.plants.len()).ok_or(book(1))?;
        let buyer = place_of(values[1], self.buyers.len()).ok_or(book(3))?;
        let volume = values[2];
        refuse_if(self.commitments == MOST_COMMITMENTS, book(4))?;
        refuse_if(volume == 0 || volume > MOST_COMMITTED, book(6))?;
        refuse_if(self.plants[plant].committed + volume > MOST_COMMITTED, book(7))?;
        self.plants[plant].committed += volume;
        self.buyers[buyer].committed += volume;
        self.commitments += 1;
        Ok(())
    }

    fn unit(&mut self, group: u64, number: u64) -> Result<&mut Unit, Refusal> {
        let found = match group {
            1 => place_of(number, self.competitive.len()).map(|place| &mut self.competitive[place].unit),
            2 => place_of(number, self.guaranteed.len()).map(|place| &mut self.guaranteed[place].unit),
            _ => None,
        };
        found.ok_or(book(2))
    }

    fn correct(&mut self, values: &[u64]) -> Result<(), Refusal> {
        let unit = self.unit(values[0], values[1])?;
        refuse_if(values[2] > MOST_ENERGY, book(6))?;
        unit.gross = values[2];
        Ok(())
    }

    fn set_aside(&mut self, values: &[u64], aside: bool) -> Result<(), Refusal> {
        self.unit(values[0], values[1])?.aside = aside;
        Ok(())
    }

    fn read_competitive(&mut self, values: &[u64]) -> Result<(), Refusal> {
        let place = place_of(values[0], self.competitive.len()).ok_or(book(2))?;
        let reading = CompetitiveReading {
            net: values[1],
            accepted: values[2],
            lost: values[3],
            limited: values[4],
            executed: values[5],
            asked: values[6] == 1,
            control: Control::of(&values[7..15]),
            opportunity: values[15],
            planning: values[16],
            cooperation: values[17],
        };
        refuse_if(over(MOST_ENERGY, &values[1..6]) || over(MOST_ENERGY, &values[7..13]), book(6))?;
        refuse_if(over(MOST_ADJUSTMENT, &values[15..18]), book(9))?;
        let strange = values[6] > 1 || reading.control.day > MOST_DAY || reading.control.minute > MOST_MINUTE;
        refuse_if(strange, book(10))?;
        refuse_if(reading.limited > reading.accepted + reading.lost, book(11))?;
        self.competitive[place].reading = reading;
        Ok(())
    }

    fn read_guaranteed(&mut self, values: &[u64]) -> Result<(), Refusal> {
        let place = place_of(values[0], self.guaranteed.len()).ok_or(book(2))?;
        let reading = GuaranteedReading { net: values[1], control: Control::of(&values[2..10]) };
        refuse_if(over(MOST_ENERGY, &values[1..8]), book(6))?;
        refuse_if(reading.control.day > MOST_DAY || reading.control.minute > MOST_MINUTE, book(10))?;
        self.guaranteed[place].reading = reading;
        Ok(())
    }

    fn read_buyer(&mut self, values: &[u64]) -> Result<(), Refusal> {
        let place = place_of(values[0], self.buyers.len()).ok_or(book(3))?;
        refuse_if(values[1] > MOST_USE, book(6))?;
        self.buyers[place].used = values[1];
        Ok(())
    }

    // Closing

    fn close(&mut self) {
        for (number, Competitive { unit, offer, .. }) in self.competitive.iter().enumerate() {
            if !unit.aside {
                let plant = &mut self.plants[unit.plant];
                plant.declared[0] += unit.gross;
                let pieces = offer.pieces(0, plant.net(unit.gross, unit.rho));
                plant.offered[0].extend(pieces.map(|step| Offered {
                    unit: number,
                    width: step.width,
                    price: step.price,
                }));
            }
        }
        for (number, Guaranteed { unit, seasonal, .. }) in self.guaranteed.iter().enumerate() {
            if !unit.aside {
                let plant = &mut self.plants[unit.plant];
                plant.declared[1] += unit.gross;
                let limit = plant.net(*seasonal, unit.rho);
                plant.offered[1].push(Offered { unit: number, width: limit, price: self.header.rate });
            }
        }
        for plant in &mut self.plants {
            let [own, others] = plant.declared;
            let share = match own + others {
                0 => plant.committed,
                all => plant.committed * own / all,
            };
            let rest = plant.committed - share;
            let [first, second] = &mut plant.offered;
            let uncovered = split(share, first, |unit, amount| self.competitive[unit].unit.allocated += amount)
                + split(rest, second, |unit, amount| self.guaranteed[unit].unit.allocated += amount);
            plant.run_support = uncovered;
            plant.allocated = plant.committed - uncovered;
        }
        self.stage = Stage::Closed;
    }

    // Settling

    fn settle(&mut self) {
        for competitive in &mut self.competitive {
            let plant = &mut self.plants[competitive.unit.plant];
            competitive.unit.bill = plant.at_reference(competitive.reading.net);
            competitive.unit.payment = competitive.paid(plant, self.header.ceiling);
            plant.active += competitive.reading.control.energy();
            plant.bill += competitive.unit.bill;
            plant.payment += competitive.unit.payment;
        }
        for guaranteed in &mut self.guaranteed {
            let plant = &mut self.plants[guaranteed.unit.plant];
            guaranteed.unit.bill = plant.at_reference(guaranteed.reading.net);
            let price = self.header.rate + if guaranteed.feeds { self.header.saving } else { 0 };
            guaranteed.unit.payment = guaranteed.unit.bill * price;
            plant.active += guaranteed.reading.control.energy();
            plant.bill += guaranteed.unit.bill;
            plant.payment += guaranteed.unit.payment;
        }
        self.stage = Stage::Settled;
    }

    // The listing

    fn list(&self) -> Result<String, fmt::Error> {
        let all_bills: u64 = self.plants.iter().map(|plant| plant.bill).sum();
        let all_committed: u64 = self.plants.iter().map(|plant| plant.committed).sum();
        let payments: u64 = self.plants.iter().map(|plant| plant.payment).sum();
        let adjustments: i64 = self.competitive.iter().map(|competitive| competitive.reading.adjustment()).sum();
        let paid = (payments as i64 + 1_000 * adjustments).max(0);
        let surplus = all_bills as i64 - all_committed as i64;

        let mut out = String::new();
        for (Competitive { unit, .. }, number) in self.competitive.iter().zip(1..) {
            writeln!(out, "U C {} {} {} {}", number, unit.allocated, unit.bill, unit.payment)?;
        }
        for (Guaranteed { unit, .. }, number) in self.guaranteed.iter().zip(1..) {
            writeln!(out, "U G {} {} {} {}", number, unit.allocated, unit.bill, unit.payment)?;
        }
        for (plant, number) in self.plants.iter().zip(1..) {
            let run = plant.run_support;
            let support = run + plant.allocated.saturating_sub(plant.at_reference(plant.active));
            let own = quotient(plant.payment as i64, plant.bill as i64 - plant.allocated as i64);
            let rate = own.max(quotient(paid, surplus)).map_or(self.header.ceiling, |rate| rate.min(MOST_RATE));
            let cost = support * rate + run * self.header.cpf * self.header.bar / (WHOLE - plant.loss);
            writeln!(
                out,
                "P {} {} {} {} {} {} {}",
                number, plant.committed, plant.allocated, run, support, rate, cost
            )?;
        }
        let all_weights: u64 = self.buyers.iter().map(Buyer::weight).sum();
        let running_share = |weight: u64| (all_bills * weight).checked_div(all_weights).unwrap_or(0);
        let (mut weight, mut shared) = (0, 0);
        for (buyer, number) in self.buyers.iter().zip(1..) {
            weight += buyer.weight();
            let share = running_share(weight) - shared;
            shared += share;
            writeln!(out, "B {} {} {}", number, share, share as i64 - buyer.committed as i64)?;
        }
        let unassigned = if all_weights == 0 { all_bills } else { 0 };
        writeln!(out, "H {} {} {}", all_bills, all_committed, unassigned)?;
        Ok(out)
    }
}

/// Splits a share over the steps of a group's units by price, then unit, then place. Returns what stays uncovered.
fn split(share: u64, offered: &mut [Offered], mut allocate: impl FnMut(usize, u64)) -> u64 {
    offered.sort_by_key(|step| step.price);
    let mut left = share;
    for step in offered {
        if left == 0 {
            break;
        }
        let amount = step.width.min(left);
        allocate(step.unit, amount);
        left -= amount;
    }
    left
}

fn quotient(money: i64, energy: i64) -> Option<u64> {
    (energy > 0).then(|| (money / energy) as u64)
}

impl CompetitiveReading {
    /// The opportunity payment less both penalties, in whole rial.
    fn adjustment(&self) -> i64 {
        self.opportunity as i64 - self.planning as i64 - self.cooperation as i64
    }
}

impl Competitive {
    fn paid(&self, plant: &Plant, ceiling: u64) -> u64 {
        let Competitive { unit, offer, cost, reading } = self;
        let bill = unit.bill;
        let taken = reading.accepted + reading.lost;
        let complied = taken - reading.limited;
        let a = plant.at_reference(complied).max(unit.allocated).min(bill);
        let executed = if reading.asked { plant.net(reading.executed, unit.rho) } else { 0 };
        let b = plant.at_reference(taken).max(executed).min(bill);

        // In the modified offer the kWh up to the allocated amount are free.
        let modified = |from: u64, to: u64| offer.cost(from.max(unit.allocated), to);
        let first = modified(0, a);
        let second = if b > a { cost.cost(a, b).min(modified(a, b)) } else { 0 };
        let from = a.max(b);
        let third = if first == 0 {
            cost.cost_by(from, bill, |price| (price * 12 / 10).min(ceiling))
        } else {
            let kwh = complied.clamp(1, MOST_ENERGY);
            let price = if kwh <= unit.allocated { 0 } else { offer.price(kwh) };
            (bill - from) * price
        };
        first + second + third
    }
}

impl Buyer {
    fn weight(&self) -> u64 {
        self.used * (WHOLE + self.loss) / WHOLE
    }
}

// The file ------------------------------------------------------------------------------------------------------------

fn kind_of(word: u64) -> u64 {
    word >> 28
}

fn number_of(word: u64) -> u64 {
    word & 0x0fff_ffff
}

/// The kind and the values of the record that the words begin with, if it is a whole one.
fn record(words: &[u64]) -> Option<(u64, &[u64])> {
    let (&head, rest) = words.split_first()?;
    let (kind, count) = (kind_of(head), number_of(head));
    let values = rest.get(..count as usize)?;
    let right = match kind {
        1 | 4 => count == 5,
        2 | 5 => count == 1,
        3 => count % 2 == 0 && count >= 4 && 4 + 2 * values[3] <= count,
        6 | 7 => count == 3,
        8 | 9 | 13 => count == 2,
        10 | 14 => count == 0,
        11 => count == 18,
        12 => count == 10,
        _ => false,
    };
    (right && values.iter().all(|&value| kind_of(value) == 0)).then_some((kind, values))
}

fn list_file(data: &[u8]) -> Result<Hour, Fault> {
    if !data.len().is_multiple_of(4) || data.len() > MOST_BYTES {
        return Err(Fault { refusal: file(14), place: 0 });
    }
    let words: Vec<u64> =
        data.chunks_exact(4).map(|word| u32::from_le_bytes([word[0], word[1], word[2], word[3]]).into()).collect();
    let mut hour = Hour::new();
    let mut place = 0;
    while place < words.len() {
        let fault = |refusal| Fault { refusal, place: 4 * place };
        let (kind, values) = record(&words[place..]).ok_or(file(15)).map_err(fault)?;
        hour.call(kind, values).map_err(fault)?;
        place += 1 + values.len();
    }
    match hour.stage {
        Stage::Settled => Ok(hour),
        _ => Err(Fault { refusal: file(12), place: data.len() }),
    }
}

fn main() -> io::Result<()> {
    let mut data = Vec::new();
    io::stdin().take(MOST_BYTES as u64 + 1).read_to_end(&mut data)?;
    let text = match list_file(&data) {
        Ok(hour) => hour.list().map_err(io::Error::other)?,
        Err(fault) => fault.to_string(),
    };
    io::stdout().write_all(text.as_bytes())
}
