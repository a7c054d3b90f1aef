//! Offers, quotes and prices.

#[derive(Clone, Copy)]
pub struct Offer {
    pub shares: u32,
    pub class: u8,
    pub active: Option<u32>,
    pub k: u32,
}

#[derive(Clone, Copy, PartialEq, Eq)]
pub struct Quote {
    pub class: u8,
    pub top: u32,
    pub bottom: u32,
}

pub trait Price {
    fn quote(&self, offer: Offer) -> Quote;
}

pub struct Share;

impl Price for Share {
    fn quote(&self, offer: Offer) -> Quote {
        Quote { class: 0, top: offer.shares, bottom: offer.k }
    }
}

pub struct Taxed {
    pub rate: u32,
}

impl Price for Taxed {
    fn quote(&self, offer: Offer) -> Quote {
        let kept = 100 - self.rate;
        let used = offer.active.map_or(offer.k, |active| active.min(offer.k));
        Quote { class: 0, top: offer.shares * kept, bottom: kept * used + 100 * (offer.k - used) }
    }
}

pub struct Class<P>(pub P);

impl<P: Price> Price for Class<P> {
    fn quote(&self, offer: Offer) -> Quote {
        Quote { class: offer.class, ..self.0.quote(offer) }
    }
}
