//! Messages in the order in which they came, read while another is answered, so that one can be cancelled before its
//! turn.

use crate::frame;
use crate::incoming::{self, Incoming};
use serde_json::Value;
use std::collections::VecDeque;
use std::io::{BufReader, Read};
use std::sync::mpsc::{channel, Receiver, Sender, TryRecvError};
use std::thread;

/// What comes from the client.
#[derive(Debug)]
pub enum Event {
    Message(Incoming),
    /// A request that the client took back before its turn.
    Cancelled(Value),
    /// There is no more input: it ended, or nothing says where its next message begins.
    Ended(Option<String>),
}

/// What has come and waits.
pub struct Queue {
    input: Receiver<Event>,
    waiting: VecDeque<Event>,
}

impl Queue {
    /// Reads messages from now on.
    pub fn of(input: impl Read + Send + 'static) -> Queue {
        let (sender, receiver) = channel();
        thread::spawn(move || read_all(input, &sender));
        Queue {
            input: receiver,
            waiting: VecDeque::new(),
        }
    }

    /// What comes next.
    pub fn next(&mut self) -> Event {
        self.take_what_came();
        if let Some(event) = self.waiting.pop_front() {
            return event;
        }
        self.input.recv().unwrap_or(Event::Ended(None))
    }

    /// Whether nothing waits now.
    pub fn is_empty(&mut self) -> bool {
        self.take_what_came();
        self.waiting.is_empty()
    }

    /// Takes all that has come; a request that is cancelled among it keeps its place.
    fn take_what_came(&mut self) {
        loop {
            match self.input.try_recv() {
                Ok(event) => self.wait(event),
                Err(TryRecvError::Empty | TryRecvError::Disconnected) => return,
            }
        }
    }

    fn wait(&mut self, event: Event) {
        if let Some(cancelled) = cancelled(&event) {
            let is_meant = |event: &&mut Event| is_request(event, cancelled);
            if let Some(request) = self.waiting.iter_mut().find(is_meant) {
                *request = Event::Cancelled(cancelled.clone());
            }
            return;
        }
        self.waiting.push_back(event);
    }
}

/// The id that a notification cancels.
fn cancelled(event: &Event) -> Option<&Value> {
    match event {
        Event::Message(Incoming::Notification { method, params })
            if method == "$/cancelRequest" =>
        {
            params.get("id")
        }
        _ => None,
    }
}

fn is_request(event: &Event, wanted: &Value) -> bool {
    matches!(event, Event::Message(Incoming::Request { id, .. }) if id == wanted)
}

/// Reads to the input's end.
fn read_all(input: impl Read, events: &Sender<Event>) {
    let mut input = BufReader::new(input);
    loop {
        let (event, is_last) = match frame::read(&mut input) {
            Ok(Some(bytes)) => (Event::Message(incoming::read(&bytes)), false),
            Ok(None) => (Event::Ended(None), true),
            Err(error) => (Event::Ended(Some(error.to_string())), true),
        };
        if events.send(event).is_err() || is_last {
            return;
        }
    }
}

#[cfg(test)]
#[allow(clippy::unwrap_used)]
mod tests {
    use super::*;

    fn queue(messages: &[&str]) -> Queue {
        let (sender, receiver) = channel();
        for message in messages {
            let event = Event::Message(incoming::read(message.as_bytes()));
            sender.send(event).unwrap();
        }
        Queue {
            input: receiver,
            waiting: VecDeque::new(),
        }
    }

    #[test]
    fn a_request_is_cancelled_in_its_place() {
        let mut queue = queue(&[
            r#"{"id":1,"method":"a"}"#,
            r#"{"id":2,"method":"b"}"#,
            r#"{"method":"$/cancelRequest","params":{"id":1}}"#,
            r#"{"method":"$/cancelRequest","params":{"id":7}}"#,
            r#"{"id":"1","method":"c"}"#,
        ]);
        assert!(!queue.is_empty());
        assert!(matches!(queue.next(), Event::Cancelled(id) if id == 1));
        assert!(is_request(&queue.next(), &Value::from(2)));
        assert!(is_request(&queue.next(), &Value::from("1")));
        assert!(queue.is_empty());
        assert!(matches!(queue.next(), Event::Ended(None)));
    }
}
