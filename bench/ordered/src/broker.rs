//! The broker, with one ordered set for the bids and one for the ends of estimates.

use std::cmp::Ordering;
use std::collections::BTreeSet;

use crate::price::{Offer, Price, Quote};

const MOST_CLIENTS: u32 = 256;

#[derive(Clone, Copy)]
pub enum Refusal {
    PoolOutOfRange = 1,
    ClientOutOfRange = 2,
    SharesOutOfRange = 3,
    ClassOutOfRange = 4,
    MaximumOutOfRange = 5,
    AlreadyStarted = 11,
    AlreadyAdmitted = 13,
    NotAdmitted = 14,
    MaximumAboveFrames = 15,
    MinimumsAboveFrames = 16,
    AtMaximum = 17,
    Outbid = 18,
    HoldsNoFrame = 19,
    ActiveAboveFrames = 20,
    EndNotAfterClock = 21,
    TickBeforeClock = 22,
}

/// Ordered by rank: the least bid is the one that ranks lowest.
#[derive(Clone, Copy, PartialEq, Eq)]
struct Bid {
    within_minimum: bool,
    quote: Quote,
    client: u16,
    k: u32,
}

impl Ord for Bid {
    fn cmp(&self, other: &Self) -> Ordering {
        let cross = |top: u32, bottom: u32| u64::from(top) * u64::from(bottom);
        self.within_minimum
            .cmp(&other.within_minimum)
            .then_with(|| self.quote.class.cmp(&other.quote.class))
            .then_with(|| {
                cross(self.quote.top, other.quote.bottom).cmp(&cross(other.quote.top, self.quote.bottom))
            })
            .then_with(|| other.client.cmp(&self.client))
            .then_with(|| other.k.cmp(&self.k))
    }
}

impl PartialOrd for Bid {
    fn partial_cmp(&self, other: &Self) -> Option<Ordering> {
        Some(self.cmp(other))
    }
}

struct Estimate {
    active: u32,
    end: u32,
}

struct Client {
    number: u16,
    shares: u32,
    class: u8,
    minimum: u32,
    maximum: u32,
    estimate: Option<Estimate>,
    /// The last frame is the top.
    frames: Vec<u16>,
    /// The client's bid among the payers, where it holds more than its minimum.
    standing: Option<Bid>,
}

impl Client {
    fn holding(&self) -> u32 {
        self.frames.len() as u32
    }

    fn bid<P: Price>(&self, price: &P, k: u32) -> Bid {
        let active = self.estimate.as_ref().map(|estimate| estimate.active);
        let quote = price.quote(Offer { shares: self.shares, class: self.class, active, k });
        Bid { within_minimum: k <= self.minimum, quote, client: self.number, k }
    }

    /// Puts the client's present bid in the place of the one that stood.
    fn stand<P: Price>(&mut self, price: &P, payers: &mut BTreeSet<Bid>) {
        if let Some(bid) = self.standing.take() {
            payers.remove(&bid);
        }
        if self.holding() > self.minimum {
            let bid = self.bid(price, self.holding());
            payers.insert(bid);
            self.standing = Some(bid);
        }
    }
}

pub struct Grant {
    pub frame: u16,
    pub paying: Quote,
    pub former: Option<(u16, Quote)>,
}

pub struct Broker<P> {
    price: P,
    frames: u32,
    tick: u32,
    free: Vec<u16>,
    minimums: u32,
    clients: Vec<Option<Client>>,
    payers: BTreeSet<Bid>,
    ends: BTreeSet<(u32, u16)>,
}

fn place(client: u32) -> Result<usize, Refusal> {
    if (1..=MOST_CLIENTS).contains(&client) {
        Ok(client as usize - 1)
    } else {
        Err(Refusal::ClientOutOfRange)
    }
}

fn refuse_if(met: bool, refusal: Refusal) -> Result<(), Refusal> {
    if met {
        Err(refusal)
    } else {
        Ok(())
    }
}

impl<P: Price> Broker<P> {
    pub fn new(price: P) -> Self {
        Broker {
            price,
            frames: 0,
            tick: 0,
            free: Vec::new(),
            minimums: 0,
            clients: (0..MOST_CLIENTS).map(|_| None).collect(),
            payers: BTreeSet::new(),
            ends: BTreeSet::new(),
        }
    }

    pub fn start(&mut self, unit: u32, frames: u32) -> Result<(), Refusal> {
        let in_range = (1..=4096).contains(&frames) && (1..=999).contains(&unit);
        refuse_if(!in_range, Refusal::PoolOutOfRange)?;
        refuse_if(self.frames > 0, Refusal::AlreadyStarted)?;
        self.frames = frames;
        self.free = (1..=frames as u16).rev().collect();
        Ok(())
    }

    pub fn admit(
        &mut self,
        client: u32,
        shares: u32,
        class: u32,
        minimum: u32,
        maximum: u32,
    ) -> Result<(), Refusal> {
        let place = place(client)?;
        refuse_if(!(1..=1_000_000).contains(&shares), Refusal::SharesOutOfRange)?;
        refuse_if(class > 9, Refusal::ClassOutOfRange)?;
        refuse_if(maximum == 0 || maximum < minimum, Refusal::MaximumOutOfRange)?;
        refuse_if(self.clients[place].is_some(), Refusal::AlreadyAdmitted)?;
        refuse_if(maximum > self.frames, Refusal::MaximumAboveFrames)?;
        refuse_if(self.minimums + minimum > self.frames, Refusal::MinimumsAboveFrames)?;
        self.minimums += minimum;
        self.clients[place] = Some(Client {
            number: client as u16,
            shares,
            class: class as u8,
            minimum,
            maximum,
            estimate: None,
            frames: Vec::new(),
            standing: None,
        });
        Ok(())
    }

    pub fn ask(&mut self, client: u32) -> Result<Grant, Refusal> {
        let place = place(client)?;
        let asker = self.clients[place].as_ref().ok_or(Refusal::NotAdmitted)?;
        let holding = asker.holding();
        refuse_if(holding == asker.maximum, Refusal::AtMaximum)?;
        let bid = asker.bid(&self.price, holding + 1);
        let (frame, former) = match self.free.pop() {
            Some(frame) => (frame, None),
            None => {
                let lowest = *self.payers.first().ok_or(Refusal::Outbid)?;
                refuse_if(holding >= asker.minimum && bid <= lowest, Refusal::Outbid)?;
                let owner = self.clients[usize::from(lowest.client) - 1].as_mut().expect("a payer is admitted");
                let frame = owner.frames.pop().expect("a payer holds a frame");
                owner.stand(&self.price, &mut self.payers);
                (frame, Some((lowest.client, lowest.quote)))
            }
        };
        let asker = self.clients[place].as_mut().expect("the asker is admitted");
        asker.frames.push(frame);
        asker.stand(&self.price, &mut self.payers);
        Ok(Grant { frame, paying: bid.quote, former })
    }

    pub fn hand_back(&mut self, client: u32) -> Result<u16, Refusal> {
        let client = self.clients[place(client)?].as_mut().ok_or(Refusal::NotAdmitted)?;
        let frame = client.frames.pop().ok_or(Refusal::HoldsNoFrame)?;
        client.stand(&self.price, &mut self.payers);
        self.free.push(frame);
        Ok(frame)
    }

    pub fn leave(&mut self, client: u32) -> Result<usize, Refusal> {
        let client = self.clients[place(client)?].take().ok_or(Refusal::NotAdmitted)?;
        if let Some(bid) = client.standing {
            self.payers.remove(&bid);
        }
        if let Some(estimate) = client.estimate {
            self.ends.remove(&(estimate.end, client.number));
        }
        self.minimums -= client.minimum;
        self.free.extend(client.frames.iter().rev());
        Ok(client.frames.len())
    }

    pub fn estimate(&mut self, client: u32, active: u32, end: u32) -> Result<(), Refusal> {
        let client = self.clients[place(client)?].as_mut().ok_or(Refusal::NotAdmitted)?;
        refuse_if(active > self.frames, Refusal::ActiveAboveFrames)?;
        refuse_if(end <= self.tick, Refusal::EndNotAfterClock)?;
        if let Some(earlier) = client.estimate.replace(Estimate { active, end }) {
            self.ends.remove(&(earlier.end, client.number));
        }
        self.ends.insert((end, client.number));
        client.stand(&self.price, &mut self.payers);
        Ok(())
    }

    pub fn clock(&mut self, tick: u32) -> Result<u32, Refusal> {
        refuse_if(tick < self.tick, Refusal::TickBeforeClock)?;
        self.tick = tick;
        let mut ended = 0;
        while let Some(&(end, number)) = self.ends.first() {
            if end > tick {
                break;
            }
            self.ends.pop_first();
            let client = self.clients[usize::from(number) - 1].as_mut().expect("an estimate is of a client");
            client.estimate = None;
            client.stand(&self.price, &mut self.payers);
            ended += 1;
        }
        Ok(ended)
    }

    pub fn free_frames(&self) -> usize {
        self.free.len()
    }

    /// Each client's number, holding and, where it holds a frame, quote, by rising number.
    pub fn holdings(&self) -> impl Iterator<Item = (u16, u32, Option<Quote>)> + '_ {
        self.clients.iter().flatten().map(|client| {
            let holding = client.holding();
            let quote = (holding > 0).then(|| client.bid(&self.price, holding).quote);
            (client.number, holding, quote)
        })
    }
}
