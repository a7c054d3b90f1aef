//! A run: one line of the input after another, and then the end report.

use std::io::{self, Write};

use crate::broker::{Broker, Refusal};
use crate::line::{Fault, Reader};
use crate::price::Price;
use crate::text::{Counter, Line, Printer, Text};

enum Failure {
    Fault(Fault),
    Refusal(Refusal),
}

impl From<Fault> for Failure {
    fn from(fault: Fault) -> Self {
        Failure::Fault(fault)
    }
}

impl From<Refusal> for Failure {
    fn from(refusal: Refusal) -> Self {
        Failure::Refusal(refusal)
    }
}

pub fn run<P: Price>(mut input: Vec<u8>, to: impl Write) -> io::Result<()> {
    let mut reader = Reader::new(&mut input);
    let mut broker = Broker::<P>::new();
    let mut out = Printer::new(to);
    let mut number = Counter::zero();
    while let Some(first_eight) = reader.next_line() {
        number.add_one();
        let mut line = out.line()?;
        match perform(&mut broker, first_eight, &mut reader, &mut line) {
            Ok(()) => {}
            Err(Failure::Refusal(refusal)) => {
                line.text(b"line ").line_number(&number).refusal(refusal as u8);
            }
            Err(Failure::Fault(Fault { kind, column })) => {
                line.text(b"line ")
                    .line_number(&number)
                    .text(b" text ")
                    .number(kind.into())
                    .text(b" at ")
                    .number(column);
            }
        }
        line.end();
    }
    report(&broker, &mut out)?;
    out.flush()
}

/// Performs the line that the reader has come to, and fills in what is printed where it is accepted.
fn perform<P: Price>(
    broker: &mut Broker<P>,
    first_eight: u64,
    reader: &mut Reader,
    line: &mut Line,
) -> Result<(), Failure> {
    match first_eight as u8 {
        b'Q' => {
            let client = reader.only_number(first_eight)?;
            let (place, grant) = broker.ask(client)?;
            line.text(b"grant ").number(client).text(b" frame ").number(grant.frame.into());
            match grant.former {
                None => {
                    line.text(b" from 0 paying ");
                    quote::<P>(&broker.client(place).class_and_top, grant.parts, line);
                }
                Some(former) => {
                    line.text(b" from ").number(u32::from(former.place) + 1).text(b" paying ");
                    quote::<P>(&broker.client(place).class_and_top, grant.parts, line);
                    line.text(b" over ");
                    quote::<P>(&broker.client(former.place).class_and_top, former.parts, line);
                }
            }
        }
        b'H' => {
            let client = reader.only_number(first_eight)?;
            let (_, frame) = broker.hand_back(client)?;
            line.text(b"back ").number(client).text(b" frame ").number(frame.into());
        }
        b'E' => {
            let estimate = reader.numbers()?;
            let place = broker.estimate(estimate)?;
            line.text(b"estimate ").number(u32::from(place) + 1);
        }
        b'T' => {
            let [tick] = reader.numbers()?;
            let ended = broker.clock(tick)?;
            line.text(b"clock ").piece(&Text::number(tick)).text(b" ended ").number(ended);
        }
        b'A' => {
            let terms = reader.numbers()?;
            let place = broker.admit(terms)?;
            line.text(b"admit ").number(u32::from(place) + 1);
        }
        b'L' => {
            let client = reader.only_number(first_eight)?;
            let (_, frames) = broker.leave(client)?;
            line.text(b"leave ").number(client).text(b" frames ").number(frames);
        }
        b'S' => {
            let [unit, frames] = reader.numbers()?;
            broker.start(unit, frames)?;
            line.text(b"pool ").number(unit).text(b" frames ").number(frames);
        }
        _ => return Err(reader.wrong_letter().into()),
    }
    Ok(())
}

fn quote<P: Price>(class_and_top: &Text, parts: u32, line: &mut Line) {
    line.piece(class_and_top);
    P::write_bottom(parts, line);
}

fn report<P: Price>(broker: &Broker<P>, out: &mut Printer<impl Write>) -> io::Result<()> {
    let mut line = out.line()?;
    line.text(b"end free ").number(broker.free_frames());
    line.end();
    for place in 0..=u8::MAX {
        let client = broker.client(place);
        if !client.is_admitted() {
            continue;
        }
        let mut line = out.line()?;
        line.text(b"client ")
            .number(u32::from(place) + 1)
            .text(b" holds ")
            .number(client.holding)
            .text(b" price ");
        if client.holding == 0 {
            line.text(b"-");
        } else {
            quote::<P>(&client.class_and_top, client.parts::<P>(), &mut line);
        }
        line.end();
    }
    Ok(())
}
