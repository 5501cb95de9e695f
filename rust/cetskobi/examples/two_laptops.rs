//! Two laptops keep one ring record in step by packets, although one packet is lost and one comes twice. Both open it before either
//! saves: the second save is refused, and made again over the text that stands there by then. Then the other saves too before it has
//! heard of that: a tie, which goes to the lower number.
//! From the repository's root (examples/c/two_laptops.c tells the same in C):
//!   sh tools/archive
//!   CARGO_TARGET_DIR=target/rust cargo run --offline --release --quiet --manifest-path rust/Cargo.toml -p cetskobi --example two_laptops

use cetskobi::{packet, Laptop, Leaving, NotCommitted, Opened, Refusal, Rule};

/// The record's number, and what is saved there.
const RING: usize = 7;
const WING: &[u8] = b"Blue tit, wing 62";
const REMARK: &[u8] = b"Blue tit, female";
const BOTH: &[u8] = b"Blue tit, female, wing 62";
const AGAIN: &[u8] = b"Blue tit, wing 63";

/// The rule of ties: the same at all laptops of a group, and fixed at its start.
const RULE: Rule = Rule::Lower;

fn main() -> Result<(), Refusal> {
    // Two laptops, both in the view, eight records each.
    let mut net = Laptop::start(0, 0b11, RULE, 8)?;
    let mut hut = Laptop::start(1, 0b11, RULE, 8)?;
    println!(
        "laptops 0 and 1 start with {} records; a tie goes to the {RULE} number",
        net.count()
    );

    println!("a ringer at each opens record {RING}");
    let seen_at_net = open(&net)?;
    let seen_at_hut = open(&hut)?;

    println!("laptop 0 saves over what it opened");
    send(net.commit(seen_at_net, WING)?)?;
    println!("the packet is lost");
    show(&net);

    println!("laptop 0 sends again");
    let inv = send(net.resend(RING)?)?;
    println!("laptop 1 takes the packet");
    let ack = take(&mut hut, &inv)?.expect("an INV is acknowledged");
    show(&hut);

    // Nobody else is missing: the record is settled here, and the VAL leaves.
    println!("laptop 0 takes the packet");
    let val = take(&mut net, &ack)?.expect("the last ACK is answered by a VAL");
    show(&net);
    println!("the packet comes a second time");
    refused(take(&mut net, &ack));

    println!("laptop 1 takes the packet");
    take(&mut hut, &val)?;
    show(&hut);

    // It would save over a text that its ringer never saw. She keeps her own, opens the ring again, and sees both.
    println!("laptop 1 saves over what it opened");
    refused(hut.commit(seen_at_hut, REMARK).map_err(NotCommitted::into));
    let seen_at_hut = open(&hut)?;
    println!("laptop 1 saves over that");
    let inv_of_hut = send(hut.commit(seen_at_hut, BOTH)?)?;

    // Nor has the other's ringer seen that. Both saves are of version 2.
    println!("laptop 0 saves before it takes the packet");
    let seen_at_net = open(&net)?;
    let inv_of_net = send(net.commit(seen_at_net, AGAIN)?)?;
    println!("each takes the other's packet");
    let ack_of_net = take(&mut net, &inv_of_hut)?.expect("an INV is acknowledged");
    let ack_of_hut = take(&mut hut, &inv_of_net)?.expect("an INV is acknowledged");

    // Laptop 1 was overtaken: its last ACK is counted, and nothing leaves.
    println!("each takes the other's acknowledgement");
    take(&mut hut, &ack_of_net)?;
    let val = take(&mut net, &ack_of_hut)?.expect("the last ACK is answered by a VAL");
    println!("laptop 1 takes the packet");
    take(&mut hut, &val)?;
    show(&net);
    show(&hut);
    Ok(())
}

/// A ringer opens the ring: what she sees, and what her save brings back.
fn open(laptop: &Laptop) -> Result<Opened, Refusal> {
    let opened = laptop.ask(RING)?;
    println!(
        "  laptop {} opens {}: \"{}\"",
        laptop.number(),
        opened.timestamp(),
        opened.text().escape_ascii()
    );
    Ok(opened)
}

/// The packet of what left an event.
fn send(left: Leaving) -> Result<Vec<u8>, Refusal> {
    let mut bytes = vec![0; packet::PACKET_MAX];
    let len = packet::pack(RULE, [&left], &mut bytes)?;
    bytes.truncate(len);
    for to in left.recipients() {
        println!("  {} to laptop {to}, {len} bytes", left.envelope().message);
    }
    Ok(bytes)
}

/// A packet comes. It is accepted as a whole, and then its messages are delivered,
/// here one: what leaves, if anything does, as a packet.
fn take(laptop: &mut Laptop, packet: &[u8]) -> Result<Option<Vec<u8>>, Refusal> {
    let mut messages = packet::messages(laptop.settings(), packet)?;
    let arrival = laptop.deliver_next(&mut messages);
    let reply = arrival.expect("a packet has a message").reply()?;
    reply.leaving().map(send).transpose()
}

/// What the laptop's screen has.
fn show(laptop: &Laptop) {
    match laptop.read(RING) {
        Ok(text) => println!(
            "  laptop {} shows: {}",
            laptop.number(),
            text.escape_ascii()
        ),
        Err(r) => println!(
            "  laptop {} does not show it: question {}",
            laptop.number(),
            r.number()
        ),
    }
}

/// A refused event: nothing has changed.
fn refused<T>(answer: Result<T, Refusal>) {
    if let Err(refusal) = answer {
        println!("  refused: question {}", refusal.number());
    }
}
