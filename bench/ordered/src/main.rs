//! The job of the two broker programs in plain Rust, with ordered sets: `ordered share` and `ordered class`.

mod broker;
mod line;
mod price;
mod print;

use std::io::{self, Read, Write};
use std::process::ExitCode;

use broker::Broker;
use line::{Event, Fault};
use price::{Class, Price, Share, Taxed};
use print::Printer;

const INPUT_LIMIT: u64 = 16_777_216;
const TAX_RATE: u32 = 75;

fn main() -> ExitCode {
    let args: Vec<String> = std::env::args().skip(1).collect();
    let done = match args.iter().map(String::as_str).collect::<Vec<_>>()[..] {
        ["share"] => run(Share),
        ["class"] => run(Class(Taxed { rate: TAX_RATE })),
        _ => {
            eprintln!("usage: ordered share|class < events");
            return ExitCode::FAILURE;
        }
    };
    match done {
        Ok(()) => ExitCode::SUCCESS,
        Err(error) => {
            eprintln!("The run ended early: {error}.");
            ExitCode::FAILURE
        }
    }
}

fn run<P: Price>(price: P) -> io::Result<()> {
    let mut input = Vec::new();
    io::stdin().lock().take(INPUT_LIMIT).read_to_end(&mut input)?;
    let mut out = Printer::new(io::stdout().lock());
    let mut broker = Broker::new(price);
    for (index, line) in line::lines(&input).enumerate() {
        match Event::read(line) {
            Ok(event) => answer(&mut broker, event, index + 1, &mut out)?,
            Err(Fault { kind, column }) => {
                out.text("line ").number(index + 1).text(" text ").number(kind).text(" at ").number(column).end()?
            }
        }
    }
    out.text("end free ").number(broker.free_frames()).end()?;
    for (number, holding, quote) in broker.holdings() {
        out.text("client ").number(number).text(" holds ").number(holding).text(" price ");
        match quote {
            Some(quote) => out.quote(quote).end()?,
            None => out.text("-").end()?,
        }
    }
    out.flush()
}

fn answer<P: Price, W: Write>(
    broker: &mut Broker<P>,
    event: Event,
    line: usize,
    out: &mut Printer<W>,
) -> io::Result<()> {
    let refusal = match event {
        Event::Start { unit, frames } => match broker.start(unit, frames) {
            Ok(()) => return out.text("pool ").number(unit).text(" frames ").number(frames).end(),
            Err(refusal) => refusal,
        },
        Event::Admit { client, shares, class, minimum, maximum } => {
            match broker.admit(client, shares, class, minimum, maximum) {
                Ok(()) => return out.text("admit ").number(client).end(),
                Err(refusal) => refusal,
            }
        }
        Event::Ask { client } => match broker.ask(client) {
            Ok(grant) => {
                out.text("grant ").number(client).text(" frame ").number(grant.frame);
                match grant.former {
                    None => out.text(" from 0 paying ").quote(grant.paying),
                    Some((owner, over)) => out
                        .text(" from ")
                        .number(owner)
                        .text(" paying ")
                        .quote(grant.paying)
                        .text(" over ")
                        .quote(over),
                };
                return out.end();
            }
            Err(refusal) => refusal,
        },
        Event::HandBack { client } => match broker.hand_back(client) {
            Ok(frame) => return out.text("back ").number(client).text(" frame ").number(frame).end(),
            Err(refusal) => refusal,
        },
        Event::Leave { client } => match broker.leave(client) {
            Ok(count) => return out.text("leave ").number(client).text(" frames ").number(count).end(),
            Err(refusal) => refusal,
        },
        Event::Estimate { client, active, end } => match broker.estimate(client, active, end) {
            Ok(()) => return out.text("estimate ").number(client).end(),
            Err(refusal) => refusal,
        },
        Event::Clock { tick } => match broker.clock(tick) {
            Ok(ended) => return out.text("clock ").number(tick).text(" ended ").number(ended).end(),
            Err(refusal) => refusal,
        },
    };
    out.text("line ").number(line).text(" refused ").number(refusal as u8).end()
}
