//! The broker. A client's place is its number less one.

use std::marker::PhantomData;

use crate::price::{Price, NO_ESTIMATE};
use crate::rank::{bits_of_client, bits_of_fraction, place_of, WITHIN_MINIMUM};
use crate::text::Text;
use crate::tree::{Tournament, NONE};

const MOST_CLIENTS: usize = 256;
const MOST_FRAMES: usize = 4096;

#[derive(Clone, Copy)]
pub enum Refusal {
    PoolOutOfRange = 1,
    ClientOutOfRange = 2,
    SharesOutOfRange = 3,
    ClassOutOfRange = 4,
    MaximumOutOfRange = 5,
    AlreadyStarted = 11,
    AlreadyAdmitted = 13,
    NotAdmitted = 14,
    MaximumAboveFrames = 15,
    MinimumsAboveFrames = 16,
    AtMaximum = 17,
    Outbid = 18,
    HoldsNoFrame = 19,
    ActiveAboveFrames = 20,
    EndNotAfterClock = 21,
    TickBeforeClock = 22,
}

/// A client's record. Where none is admitted the maximum is 0.
#[derive(Clone, Copy)]
pub struct Client {
    shares: u32,
    minimum: u32,
    maximum: u32,
    active: u32,
    pub holding: u32,
    /// The top of its stack, or 0.
    top: u16,
    /// Its bid at its holding. Where it holds nothing, only that this bid is within the minimum counts.
    bid: u64,
    /// Its bid at one frame more.
    next_bid: u64,
    /// What its bids have in common.
    bits: u64,
    pub class_and_top: Text,
}

impl Client {
    const ABSENT: Client = Client {
        shares: 0,
        minimum: 0,
        maximum: 0,
        active: NO_ESTIMATE,
        holding: 0,
        top: 0,
        bid: 0,
        next_bid: 0,
        bits: 0,
        class_and_top: Text::EMPTY,
    };

    pub fn is_admitted(&self) -> bool {
        self.maximum > 0
    }

    /// The parts of its quote at its holding.
    pub fn parts<P: Price>(&self) -> u32 {
        P::parts(self.holding, self.active)
    }

    fn bid_at<P: Price>(&self, k: u32) -> u64 {
        let within = if k <= self.minimum { WITHIN_MINIMUM } else { 0 };
        within | self.bits | bits_of_fraction(self.shares, P::parts(k, self.active).max(1))
    }

    fn bid_anew<P: Price>(&mut self) {
        self.bid = self.bid_at::<P>(self.holding);
        self.next_bid = self.bid_at::<P>(self.holding + 1);
    }

    /// Its bid among the payers', or `NONE` where it holds no more than its minimum.
    fn payers_bid(&self) -> u64 {
        if self.bid & WITHIN_MINIMUM != 0 {
            NONE
        } else {
            self.bid
        }
    }

    fn gain<P: Price>(&mut self, frame: u16, below: &mut [u16; MOST_FRAMES + 1]) {
        below[usize::from(frame)] = self.top;
        self.top = frame;
        self.holding += 1;
        self.bid = self.next_bid;
        self.next_bid = self.bid_at::<P>(self.holding + 1);
    }

    fn lose<P: Price>(&mut self, below: &[u16; MOST_FRAMES + 1]) -> u16 {
        let frame = self.top;
        self.top = below[usize::from(frame)];
        self.holding -= 1;
        self.next_bid = self.bid;
        self.bid = self.bid_at::<P>(self.holding);
        frame
    }
}

/// A grant, with the parts of the asker's new quote and of the former owner's old one.
pub struct Grant {
    pub frame: u16,
    pub parts: u32,
    pub former: Option<Former>,
}

pub struct Former {
    pub place: u8,
    pub parts: u32,
}

pub struct Broker<P> {
    frames: u32,
    tick: u32,
    minimums: u32,
    free_frames: u32,
    /// The top of the free stack, or 0.
    free: u16,
    /// The frame below each frame in its stack, or 0.
    below: [u16; MOST_FRAMES + 1],
    clients: [Client; MOST_CLIENTS],
    payers: Tournament,
    /// Of each estimate its end times 256, and the client's place.
    ends: Tournament,
    price: PhantomData<P>,
}

fn place(client: u32) -> Result<u8, Refusal> {
    u8::try_from(client.wrapping_sub(1)).map_err(|_| Refusal::ClientOutOfRange)
}

fn refuse_if(met: bool, refusal: Refusal) -> Result<(), Refusal> {
    if met {
        Err(refusal)
    } else {
        Ok(())
    }
}

impl<P: Price> Broker<P> {
    pub fn new() -> Self {
        Broker {
            frames: 0,
            tick: 0,
            minimums: 0,
            free_frames: 0,
            free: 0,
            below: [0; MOST_FRAMES + 1],
            clients: [Client::ABSENT; MOST_CLIENTS],
            payers: Tournament::new(),
            ends: Tournament::new(),
            price: PhantomData,
        }
    }

    fn admitted(&mut self, client: u32) -> Result<(u8, &mut Client), Refusal> {
        let place = place(client)?;
        let client = &mut self.clients[usize::from(place)];
        refuse_if(!client.is_admitted(), Refusal::NotAdmitted)?;
        Ok((place, client))
    }

    /// The record of the client in a place.
    pub fn client(&self, place: u8) -> &Client {
        &self.clients[usize::from(place)]
    }

    pub fn free_frames(&self) -> u32 {
        self.free_frames
    }

    pub fn start(&mut self, unit: u32, frames: u32) -> Result<(), Refusal> {
        let in_range = (1..=MOST_FRAMES as u32).contains(&frames) && (1..=999).contains(&unit);
        refuse_if(!in_range, Refusal::PoolOutOfRange)?;
        refuse_if(self.frames > 0, Refusal::AlreadyStarted)?;
        self.frames = frames;
        self.free_frames = frames;
        self.free = 1;
        for frame in 1..frames as u16 {
            self.below[usize::from(frame)] = frame + 1;
        }
        Ok(())
    }

    pub fn admit(&mut self, [client, shares, class, minimum, maximum]: [u32; 5]) -> Result<u8, Refusal> {
        let place = place(client)?;
        refuse_if(!(1..=1_000_000).contains(&shares), Refusal::SharesOutOfRange)?;
        refuse_if(class > 9, Refusal::ClassOutOfRange)?;
        refuse_if(maximum == 0 || maximum < minimum, Refusal::MaximumOutOfRange)?;
        let client = &mut self.clients[usize::from(place)];
        refuse_if(client.is_admitted(), Refusal::AlreadyAdmitted)?;
        refuse_if(maximum > self.frames, Refusal::MaximumAboveFrames)?;
        refuse_if(self.minimums + minimum > self.frames, Refusal::MinimumsAboveFrames)?;
        self.minimums += minimum;
        let class = if P::READS_CLASSES { class as u8 } else { 0 };
        let bits = bits_of_client(class, place);
        let class_and_top = Text::class_and_top(class, P::FACTOR * shares);
        *client = Client { shares, minimum, maximum, bits, class_and_top, ..Client::ABSENT };
        client.bid_anew::<P>();
        Ok(place)
    }

    pub fn ask(&mut self, client: u32) -> Result<(u8, Grant), Refusal> {
        let place = place(client)?;
        let asker = &self.clients[usize::from(place)];
        if asker.holding == asker.maximum {
            return Err(if asker.is_admitted() { Refusal::AtMaximum } else { Refusal::NotAdmitted });
        }
        let (frame, former) = if self.free != 0 {
            let frame = self.free;
            self.free = self.below[usize::from(frame)];
            self.free_frames -= 1;
            (frame, None)
        } else {
            let lowest = self.payers.least();
            refuse_if(asker.next_bid <= lowest, Refusal::Outbid)?;
            let place = place_of(lowest);
            let owner = &mut self.clients[usize::from(place)];
            let parts = owner.parts::<P>();
            let frame = owner.lose::<P>(&self.below);
            self.payers.set(place, owner.payers_bid());
            (frame, Some(Former { place, parts }))
        };
        let asker = &mut self.clients[usize::from(place)];
        asker.gain::<P>(frame, &mut self.below);
        self.payers.set(place, asker.payers_bid());
        Ok((place, Grant { frame, parts: asker.parts::<P>(), former }))
    }

    pub fn hand_back(&mut self, client: u32) -> Result<(u8, u16), Refusal> {
        let place = place(client)?;
        let client = &mut self.clients[usize::from(place)];
        if client.holding == 0 {
            return Err(if client.is_admitted() { Refusal::HoldsNoFrame } else { Refusal::NotAdmitted });
        }
        let frame = client.lose::<P>(&self.below);
        self.payers.set(place, client.payers_bid());
        self.below[usize::from(frame)] = self.free;
        self.free = frame;
        self.free_frames += 1;
        Ok((place, frame))
    }

    pub fn leave(&mut self, client: u32) -> Result<(u8, u32), Refusal> {
        let (place, client) = self.admitted(client)?;
        let left = std::mem::replace(client, Client::ABSENT);
        if left.active != NO_ESTIMATE {
            self.ends.set(place, NONE);
        }
        self.payers.set(place, NONE);
        self.minimums -= left.minimum;
        let mut top = left.top;
        while top != 0 {
            let frame = top;
            top = self.below[usize::from(frame)];
            self.below[usize::from(frame)] = self.free;
            self.free = frame;
        }
        self.free_frames += left.holding;
        Ok((place, left.holding))
    }

    pub fn estimate(&mut self, [client, active, end]: [u32; 3]) -> Result<u8, Refusal> {
        let (frames, tick) = (self.frames, self.tick);
        let (place, client) = self.admitted(client)?;
        refuse_if(active > frames, Refusal::ActiveAboveFrames)?;
        refuse_if(end <= tick, Refusal::EndNotAfterClock)?;
        client.active = active;
        self.ends.set(place, u64::from(end) << 8 | u64::from(place));
        self.read_estimate(place);
        Ok(place)
    }

    pub fn clock(&mut self, tick: u32) -> Result<u32, Refusal> {
        refuse_if(tick < self.tick, Refusal::TickBeforeClock)?;
        self.tick = tick;
        let mut ended = 0;
        while self.ends.least() >> 8 <= u64::from(tick) {
            let place = self.ends.least() as u8;
            self.ends.set(place, NONE);
            self.clients[usize::from(place)].active = NO_ESTIMATE;
            self.read_estimate(place);
            ended += 1;
        }
        Ok(ended)
    }

    fn read_estimate(&mut self, place: u8) {
        if P::READS_ESTIMATES {
            let client = &mut self.clients[usize::from(place)];
            client.bid_anew::<P>();
            self.payers.set(place, client.payers_bid());
        }
    }
}
