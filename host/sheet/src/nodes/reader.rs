//! The reader of a channel, a thread of its own: the other side's greeting, then frames, cut by their lengths; those that name another node are dropped.

use super::channel::{words, From};
use super::link::{Event, Order, Post};
use crate::wire::{self, Front};
use std::io::Read;

/// Why a channel is of no more use.
pub struct Loss {
    pub why: String,
    pub for_good: bool,
}

pub fn lost(why: String) -> Loss {
    Loss { why, for_good: false }
}

/// What one read brings; nothing is the end.
fn more(from: &mut From, stream: &mut Vec<u8>) -> Result<(), Loss> {
    let mut piece = [0; 4096];
    match from.read(&mut piece) {
        Ok(0) => Err(lost("closed the channel".to_string())),
        Ok(read) => {
            stream.extend_from_slice(&piece[..read]);
            Ok(())
        }
        Err(error) => Err(lost(words(&error))),
    }
}

/// The other side's greeting: one line, of our plan and of this node. The room that it tells.
fn greeted(post: &Post, from: &mut From, stream: &mut Vec<u8>) -> Result<Option<usize>, Loss> {
    let for_good = |why: String| Loss { why, for_good: true };
    let length = loop {
        match stream.iter().take(wire::LINE).position(|byte| *byte == b'\n') {
            Some(place) => break place + 1,
            None if stream.len() >= wire::LINE => {
                return Err(for_good("answers the greeting by something else".to_string()))
            }
            None => more(from, stream).map_err(|loss| closed_at_greeting(loss, stream.is_empty()))?,
        }
    };
    let line: Vec<u8> = stream.drain(..length).collect();
    let line = String::from_utf8_lossy(&line);
    let Some(greeting) = wire::read(&line) else {
        return Err(for_good("answers the greeting by something else".to_string()));
    };
    if let Some(values) = wire::differs(&post.plan, greeting.print) {
        return Err(for_good(format!("has another plan: {values}")));
    }
    match greeting.node {
        Some(node) if usize::from(node) == post.node => Ok(greeting.room),
        Some(node) => Err(for_good(format!("says that it is node {node}"))),
        None => Err(for_good("does not say which node it is".to_string())),
    }
}

/// A channel that ends before the greeting's answer: of a keeper without the greeting, or of a node, a tunnel or an ssh that is not up yet. So it is tried
/// again.
fn closed_at_greeting(loss: Loss, without_a_byte: bool) -> Loss {
    let keeper = "closed the channel at the greeting; if it is a keeper, its line begins with bare";
    let why = if without_a_byte { keeper.to_string() } else { loss.why };
    Loss { why, ..loss }
}

/// Cuts frames until the channel ends. A frame that names another node is dropped: a node speaks for itself alone.
fn frames(post: &Post, mut from: From, mut stream: Vec<u8>) -> Loss {
    loop {
        match wire::front(&post.plan, &stream) {
            Front::Frame(length) => {
                let frame: Vec<u8> = stream.drain(..length).collect();
                match pasis::frame_node(&frame) {
                    Some(node) if usize::from(node) == post.node => post.tell(Event::Frame(frame)),
                    other => {
                        let other = other.map_or("no node".to_string(), |node| format!("node {node}"));
                        post.tell(Event::Said(format!("sent a frame of {other}, which is dropped")));
                    }
                }
            }
            Front::NoFrame(length) => return lost(format!("sent a length that no frame has ({length})")),
            Front::Beginning => {
                if let Err(loss) = more(&mut from, &mut stream) {
                    return loss;
                }
            }
        }
    }
}

/// Reads a channel to its end.
pub fn read(post: &Post, channel: u64, mut from: From) {
    let mut stream = Vec::new();
    let room = if post.place.bare { Ok(None) } else { greeted(post, &mut from, &mut stream) };
    let loss = match room {
        Err(loss) => loss,
        Ok(room) => {
            let _ = post.orders.send(Order::Greeted { channel, room });
            frames(post, from, stream)
        }
    };
    let _ = post.orders.send(Order::Closed { channel, loss });
}
