//! A gateway to an object: JSON lines on standard input are calls, and each reply is a JSON line on standard
//! output, in the order in which they come.
//!
//! Usage: gateway HOST:PORT KEY INTERFACE     as in: gateway 127.0.0.1:2810 calc examples/demo.json
//!
//! A call is `{"operation":"add","ins":[2,5]}`: `ins` are its parameters (docs/FORMATS.md), and may be left out;
//! `"reply":"none"` asks for no reply. Its line has the number of the call, from 1, and what it brought:
//!
//! ```text
//! {"call":1,"outs":[7]}
//! {"call":2,"exception":"IDL:Demo/Bad:1.0","members":[7]}
//! {"call":3,"exception":"IDL:omg.org/CORBA/OBJECT_NOT_EXIST:1.0","minor":0,"completed":false}
//! {"call":4,"forward":"IOR:.."}
//! {"call":5,"error":".."}
//! ```
//!
//! One thread reads lines and one reads the socket; the end of the connection stays on the thread that made it.
mod json;

use giop::{Call, Client, ClientKind, Form, Interface, Limits, ValueForm};
use json::Member;
use std::io::{self, BufRead, Read, Write};
use std::net::{Shutdown, TcpStream};
use std::sync::mpsc::{self, Sender};
use std::{env, error, fs, process, thread};

type Error = Box<dyn error::Error>;

enum Event {
    Line(String),
    NoMoreLines,
    Octets(Vec<u8>),
    ConnectionEnded,
}

/// Lines of standard input, as events.
fn read_lines(to: Sender<Event>) {
    for line in io::stdin().lock().lines().map_while(Result::ok) {
        if to.send(Event::Line(line)).is_err() {
            return;
        }
    }
    let _ = to.send(Event::NoMoreLines);
}

/// What is read of the socket, as events.
fn read_octets(mut from: TcpStream, to: Sender<Event>) {
    let mut buffer = [0; 16_384];
    while let Ok(size @ 1..) = from.read(&mut buffer) {
        if to.send(Event::Octets(buffer[..size].to_vec())).is_err() {
            return;
        }
    }
    let _ = to.send(Event::ConnectionEnded);
}

struct Gateway {
    client: Client,
    socket: TcpStream,
    key: Vec<u8>,
    calls: u32,
    open: u32,
}

impl Gateway {
    /// Calls what a line says, under the number of the call; its Request is outgoing then.
    fn call(&mut self, line: &str) -> Result<(), Error> {
        let fields = json::object(line).ok_or("no object of texts and lists")?;
        let Some(Member::Text(operation)) = fields.get("operation") else {
            return Err("no operation".into());
        };
        let ins = match fields.get("ins") {
            Some(Member::List(ins)) => ins,
            Some(Member::Text(_)) => return Err("ins: no list".into()),
            None => "[]",
        };
        let mut call = Call::of_key(&self.key);
        if fields.get("reply") == Some(&Member::Text("none")) {
            call.flags = 0;
        }
        let (operation, ins) = (operation.as_bytes(), ins.as_bytes());
        self.client.call(self.calls, call, operation, ValueForm::Json, ins, Form::default())?;
        while self.client.entry(self.calls).left > 0 {
            self.client.send(self.calls)?;
        }
        self.open += 1;
        Ok(())
    }

    /// What a call that is over brought, as members of an object.
    fn outcome(&mut self, id: u32) -> Result<String, Error> {
        let entry = self.client.entry(id);
        if let Some(fault) = entry.fault {
            return Ok(format!(r#""error":"{fault}""#));
        }
        if entry.kind == ClientKind::OnewaySent {
            return Ok(r#""outs":[]"#.to_string());
        }
        if let Some(outs) = self.client.outs(id, ValueForm::Json)? {
            return Ok(format!(r#""outs":{}"#, String::from_utf8(outs)?));
        }
        if let Some(exception) = self.client.exception(id) {
            let exception = json::text(&String::from_utf8_lossy(&exception));
            let more = match self.client.members(id, ValueForm::Json)? {
                Some(members) => format!(r#""members":{}"#, String::from_utf8(members)?),
                None => {
                    let completed = entry.completed.map_or("null".to_string(), |it| it.to_string());
                    format!(r#""minor":{},"completed":{completed}"#, entry.minor)
                }
            };
            return Ok(format!(r#""exception":{exception},{more}"#));
        }
        Ok(match self.client.forward(id)? {
            Some(reference) => format!(r#""forward":"{reference}""#),
            None => format!(r#""error":"reply status {}""#, entry.status),
        })
    }

    /// Prints the calls that are over, and takes them out.
    fn settle(&mut self) -> Result<(), Error> {
        for id in self.client.ids()? {
            if self.client.entry(id).is_over {
                println!(r#"{{"call":{id},{}}}"#, self.outcome(id)?);
                self.client.take(id)?;
                self.open -= 1;
            }
        }
        Ok(())
    }

    fn write_out(&mut self) -> io::Result<()> {
        let octets = self.client.outgoing();
        let size = octets.len();
        self.socket.write_all(octets)?;
        assert!(self.client.wrote(size), "so many were outgoing");
        Ok(())
    }

    /// Takes in an event. False where the connection is over.
    fn take(&mut self, event: Event) -> Result<bool, Error> {
        match event {
            Event::Line(line) => {
                self.calls += 1;
                if let Err(why) = self.call(&line) {
                    println!(r#"{{"call":{},"error":{}}}"#, self.calls, json::text(&why.to_string()));
                }
            }
            Event::Octets(octets) => {
                if let Err(why) = self.client.feed(&octets) {
                    self.settle()?;
                    eprintln!("gateway: the connection ended: {why}");
                    if let Some(message) = self.client.error_message() {
                        self.socket.write_all(&message)?;
                    }
                    return Ok(false);
                }
            }
            Event::NoMoreLines => {}
            Event::ConnectionEnded => return Ok(false),
        }
        self.write_out()?;
        self.settle()?;
        Ok(true)
    }
}

fn run(address: &str, key: &str, interface: &str) -> Result<bool, Error> {
    let mut interface = Interface::from_json(&fs::read(interface)?)?;
    let socket = TcpStream::connect(address)?;
    let client = Client::new(&mut interface, Limits::default())?;
    let (events, came) = mpsc::channel();
    let (reader, lines) = (socket.try_clone()?, events.clone());
    thread::spawn(move || read_octets(reader, events));
    thread::spawn(move || read_lines(lines));
    let mut gateway = Gateway { client, socket, key: key.into(), calls: 0, open: 0 };
    let mut has_lines = true;
    while has_lines || gateway.open > 0 {
        let event = came.recv()?;
        has_lines &= !matches!(event, Event::NoMoreLines);
        if !gateway.take(event)? {
            return Ok(gateway.open == 0 && !has_lines);
        }
    }
    gateway.client.close()?;
    gateway.write_out()?;
    gateway.socket.shutdown(Shutdown::Both)?;
    Ok(true)
}

fn main() {
    let words: Vec<String> = env::args().collect();
    let [_, address, key, interface] = words.as_slice() else {
        eprintln!("usage: gateway HOST:PORT KEY INTERFACE");
        process::exit(2);
    };
    match run(address, key, interface) {
        Ok(true) => {}
        Ok(false) => process::exit(1),
        Err(why) => {
            eprintln!("gateway: {why}");
            process::exit(1);
        }
    }
}
